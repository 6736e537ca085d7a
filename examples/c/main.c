/*
 * Rewrites three bodies and a function, and prints what comes back: the four numbers, the output, and the
 * declarations. Then rewrites a body under two tables of levels, the second of which is refused, and requotes
 * a text into a buffer of just the length that is needed.
 */
#include <stdio.h>
#include <stdlib.h>
#include <string.h>

#include "plpgsql_rewriter.h"

static uint8_t output[PLPGSQL_BUFFER_SIZE];
static uint8_t work[PLPGSQL_BUFFER_SIZE];
static uint8_t spare[PLPGSQL_BUFFER_SIZE];
static uint8_t declared[PLPGSQL_BUFFER_SIZE];
static uint32_t records[PLPGSQL_RECORD_NUMBERS];

static const char *const BODIES[] = {
    "IF NEW.amount < 0 THEN RAISE EXCEPTION 'negative'; ELSIF v THEN v_sum := 1; END IF;",
    "NEW.v := 1;",
    "RAISE EXCEPTION USING ERRCODE = '22012';",
};

static const char *const FUNCTION =
    "DECLARE\n"
    "    v_total numeric(10, 2) NOT NULL := 0;\n"
    "    v_id CONSTANT int;\n"
    "    v_note text DEFAULT $$it's new$$;\n"
    "BEGIN\n"
    "    SELECT sum(amount) INTO v_total FROM orders WHERE id = NEW.id;\n"
    "    RETURN NEW;\n"
    "END;";

static const char *const RAISING = "RAISE NOTICE 'seen'; RAISE WARNING 'low stock: %', n; RAISE EXCEPTION 'sold out';";

static const char *const TABLES[] = {
    "DEBUG drop\nLOG drop\nINFO drop\nNOTICE drop\nWARNING fail\nEXCEPTION rollback\n",
    "DEBUG drop\nLOG drop\nINFO drop\nNOTICE drop\nwarning fail\nEXCEPTION rollback\n",
};

static void print_answer(const uint32_t answer[PLPGSQL_ANSWER_SIZE]) {
    for (int i = 0; i < PLPGSQL_ANSWER_SIZE; i++) {
        printf(i == 0 ? "%u" : " %u", (unsigned)answer[i]);
    }
    printf("\n");
    fwrite(output, 1, answer[PLPGSQL_CALL_LENGTH], stdout);
    printf("\n");
}

static void print_body(const char *text) {
    uint32_t answer[PLPGSQL_ANSWER_SIZE];
    plpgsql_transform_body((const uint8_t *)text, strlen(text), output, sizeof output, work, sizeof work, spare,
                           sizeof spare, answer);
    print_answer(answer);
}

static void print_body_by_levels(const char *text, const char *table) {
    uint32_t answer[PLPGSQL_ANSWER_SIZE];
    plpgsql_transform_body_by_levels((const uint8_t *)text, strlen(text), (const uint8_t *)table, strlen(table), output,
                                     sizeof output, work, sizeof work, spare, sizeof spare, answer);
    print_answer(answer);
}

static void print_part(const char *title, uint32_t start, uint32_t length) {
    printf(" %s [", title);
    fwrite(declared + start, 1, length, stdout);
    printf("]");
}

/* Follows the chain from the head, so the declarations come in the order of their names. */
static void print_declarations(void) {
    const uint32_t *record = records;
    for (uint32_t next = record[PLPGSQL_RECORD_NEXT]; next != 0; next = record[PLPGSQL_RECORD_NEXT]) {
        record = records + next * PLPGSQL_RECORD_SIZE;
        printf("record %u:", (unsigned)next);
        print_part("name", record[PLPGSQL_RECORD_NAME_START], record[PLPGSQL_RECORD_NAME_LENGTH]);
        print_part("type", record[PLPGSQL_RECORD_TYPE_START], record[PLPGSQL_RECORD_TYPE_LENGTH]);
        if (record[PLPGSQL_RECORD_HAS_DEFAULT] == 1) {
            print_part("default", record[PLPGSQL_RECORD_DEFAULT_START], record[PLPGSQL_RECORD_DEFAULT_LENGTH]);
        }
        printf("%s", record[PLPGSQL_RECORD_CONSTANT] == 1 ? " constant" : "");
        printf("%s", record[PLPGSQL_RECORD_NOT_NULL] == 1 ? " not null" : "");
        printf("\n");
    }
}

static void print_function(const char *text) {
    uint32_t answer[PLPGSQL_ANSWER_SIZE];
    plpgsql_preprocess((const uint8_t *)text, strlen(text), output, sizeof output, work, sizeof work, spare,
                       sizeof spare, declared, sizeof declared, records, PLPGSQL_RECORD_NUMBERS, answer);
    print_answer(answer);
    print_declarations();
}

/* Asks for the requoted length, allots just that, and requotes. */
static void print_requoted(const char *text) {
    uint32_t answer[PLPGSQL_ANSWER_SIZE];
    plpgsql_requoted_length((const uint8_t *)text, strlen(text), answer);
    size_t length = answer[PLPGSQL_SEARCH_LENGTH];
    if (answer[PLPGSQL_SEARCH_NUMBER] != PLPGSQL_ACCEPTED) {
        printf("not requoted: %u\n", (unsigned)answer[PLPGSQL_SEARCH_NUMBER]);
        return;
    }
    /* No pointer may be null, and malloc may return null for 0 bytes. */
    uint8_t *requoted = malloc(length == 0 ? 1 : length);
    if (requoted == NULL) {
        return;
    }
    plpgsql_requote_dollar_literals((const uint8_t *)text, strlen(text), requoted, length, answer);
    printf("%u: %u bytes, requoted %u: ", (unsigned)answer[PLPGSQL_SEARCH_NUMBER], (unsigned)strlen(text),
           (unsigned)answer[PLPGSQL_SEARCH_LENGTH]);
    fwrite(requoted, 1, answer[PLPGSQL_SEARCH_LENGTH], stdout);
    printf("\n");
    free(requoted);
}

int main(void) {
    for (size_t i = 0; i < sizeof BODIES / sizeof *BODIES; i++) {
        print_body(BODIES[i]);
    }
    print_function(FUNCTION);
    for (size_t i = 0; i < sizeof TABLES / sizeof *TABLES; i++) {
        print_body_by_levels(RAISING, TABLES[i]);
    }
    print_requoted("v := $$it's new$$;");
    return 0;
}
