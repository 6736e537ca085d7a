//! Rewrites three bodies and a function, and prints what comes back.

mod rewriter;

use rewriter::{Function, Rewriter};

const BODIES: [&str; 3] = [
    "IF NEW.amount < 0 THEN RAISE EXCEPTION 'negative'; ELSIF v THEN v_sum := 1; END IF;",
    "NEW.v := 1;",
    "RAISE EXCEPTION USING ERRCODE = '22012';",
];

const FUNCTION: &str = "DECLARE
    v_total numeric(10, 2) NOT NULL := 0;
    v_id CONSTANT int;
    v_note text DEFAULT $$it's new$$;
BEGIN
    SELECT sum(amount) INTO v_total FROM orders WHERE id = NEW.id;
    RETURN NEW;
END;";

const RAISING: &str =
    "RAISE NOTICE 'seen'; RAISE WARNING 'low stock: %', n; RAISE EXCEPTION 'sold out';";

/// Tables of levels, the second of which is refused.
const TABLES: [&str; 2] = [
    "DEBUG drop\nLOG drop\nINFO drop\nNOTICE drop\nWARNING fail\nEXCEPTION rollback\n",
    "DEBUG drop\nLOG drop\nINFO drop\nNOTICE drop\nwarning fail\nEXCEPTION rollback\n",
];

fn main() {
    let mut rewriter = Rewriter::new();
    for body in BODIES {
        match rewriter.transform_body(body) {
            Ok(output) => println!("{output}"),
            Err(refusal) => println!("refused: {refusal:?}"),
        }
    }
    match rewriter.preprocess(FUNCTION) {
        Ok(function) => print_function(&function),
        Err(refusal) => println!("refused: {refusal:?}"),
    }
    for table in TABLES {
        match rewriter.transform_body_by_levels(RAISING, table) {
            Ok(output) => println!("{output}"),
            Err(refusal) => println!("refused: {refusal:?}"),
        }
    }
}

fn print_function(function: &Function) {
    println!("{}", function.body);
    for declaration in &function.declarations {
        print!("name [{}] type [{}]", declaration.name, declaration.data_type);
        if let Some(default) = declaration.default {
            print!(" default [{default}]");
        }
        let constant = if declaration.is_constant { " constant" } else { "" };
        let not_null = if declaration.is_not_null { " not null" } else { "" };
        println!("{constant}{not_null}");
    }
}
