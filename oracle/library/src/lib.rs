//! The proved library: its C interface, with slices for pointers and lengths.
//!
//! The library keeps no pointer, and each slice stays borrowed until its call returns.

/// Number, found, place, and the length of what was found or written.
pub type Answer = [u32; 4];

/// What an answer holds before the call, so that a number that is not written shows.
const UNWRITTEN: Answer = [0xa5a5_a5a5; 4];

#[rustfmt::skip]
extern "C" {
    fn plpgsql_regions(
        text: *const u8, text_length: usize, map: *mut u8, map_length: usize, answer: *mut Answer,
    );
    fn plpgsql_find_keyword(
        text: *const u8, text_length: usize, map: *mut u8, map_length: usize,
        keyword: *const u8, keyword_length: usize, from: usize, answer: *mut Answer,
    );
    fn plpgsql_find_in_code(
        text: *const u8, text_length: usize, map: *mut u8, map_length: usize,
        byte: u8, answer: *mut Answer,
    );
    fn plpgsql_find_str_in_code(
        text: *const u8, text_length: usize, map: *mut u8, map_length: usize,
        needle: *const u8, needle_length: usize, answer: *mut Answer,
    );
    fn plpgsql_next_word_in_code(
        text: *const u8, text_length: usize, map: *mut u8, map_length: usize,
        from: usize, answer: *mut Answer,
    );
    fn plpgsql_split_in_code(
        text: *const u8, text_length: usize, map: *mut u8, map_length: usize,
        starts: *mut u32, starts_length: usize, separator: u8, answer: *mut Answer,
    );
    fn plpgsql_requote_dollar_literals(
        text: *const u8, text_length: usize, output: *mut u8, output_length: usize,
        answer: *mut Answer,
    );
    fn plpgsql_requoted_length(text: *const u8, text_length: usize, answer: *mut Answer);
    fn plpgsql_has_unterminated_dollar_quote(
        text: *const u8, text_length: usize, answer: *mut Answer,
    );
    fn plpgsql_has_exception_handler(
        text: *const u8, text_length: usize, map: *mut u8, map_length: usize, answer: *mut Answer,
    );
    fn plpgsql_is_closed(
        text: *const u8, text_length: usize, map: *mut u8, map_length: usize, answer: *mut Answer,
    );
    fn plpgsql_transform_body(
        text: *const u8, text_length: usize, output: *mut u8, output_length: usize,
        work: *mut u8, work_length: usize, spare: *mut u8, spare_length: usize,
        answer: *mut Answer,
    );
    fn plpgsql_preprocess(
        text: *const u8, text_length: usize, output: *mut u8, output_length: usize,
        work: *mut u8, work_length: usize, spare: *mut u8, spare_length: usize,
        declared: *mut u8, declared_length: usize, records: *mut u32, records_length: usize,
        answer: *mut Answer,
    );
    fn plpgsql_transform_body_by_levels(
        text: *const u8, text_length: usize, table: *const u8, table_length: usize,
        output: *mut u8, output_length: usize, work: *mut u8, work_length: usize,
        spare: *mut u8, spare_length: usize, answer: *mut Answer,
    );
    fn plpgsql_preprocess_by_levels(
        text: *const u8, text_length: usize, table: *const u8, table_length: usize,
        output: *mut u8, output_length: usize, work: *mut u8, work_length: usize,
        spare: *mut u8, spare_length: usize, declared: *mut u8, declared_length: usize,
        records: *mut u32, records_length: usize, answer: *mut Answer,
    );
}

/// The answer of one call.
fn answer(call: impl FnOnce(*mut Answer)) -> Answer {
    let mut answer = UNWRITTEN;
    call(&mut answer);
    answer
}

pub fn regions(text: &[u8], map: &mut [u8]) -> Answer {
    let (m, m_length) = (map.as_mut_ptr(), map.len());
    answer(|out| unsafe { plpgsql_regions(text.as_ptr(), text.len(), m, m_length, out) })
}

pub fn find_keyword(text: &[u8], map: &mut [u8], keyword: &[u8], from: usize) -> Answer {
    let (t, m, m_length) = (text.as_ptr(), map.as_mut_ptr(), map.len());
    let (k, k_length) = (keyword.as_ptr(), keyword.len());
    answer(|out| unsafe {
        plpgsql_find_keyword(t, text.len(), m, m_length, k, k_length, from, out)
    })
}

pub fn find_in_code(text: &[u8], map: &mut [u8], byte: u8) -> Answer {
    let (t, m, m_length) = (text.as_ptr(), map.as_mut_ptr(), map.len());
    answer(|out| unsafe { plpgsql_find_in_code(t, text.len(), m, m_length, byte, out) })
}

pub fn find_str_in_code(text: &[u8], map: &mut [u8], needle: &[u8]) -> Answer {
    let (t, m, m_length) = (text.as_ptr(), map.as_mut_ptr(), map.len());
    let (n, n_length) = (needle.as_ptr(), needle.len());
    answer(|out| unsafe { plpgsql_find_str_in_code(t, text.len(), m, m_length, n, n_length, out) })
}

pub fn next_word_in_code(text: &[u8], map: &mut [u8], from: usize) -> Answer {
    let (t, m, m_length) = (text.as_ptr(), map.as_mut_ptr(), map.len());
    answer(|out| unsafe { plpgsql_next_word_in_code(t, text.len(), m, m_length, from, out) })
}

pub fn split_in_code(text: &[u8], map: &mut [u8], starts: &mut [u32], separator: u8) -> Answer {
    let (t, m, m_length) = (text.as_ptr(), map.as_mut_ptr(), map.len());
    let (s, s_length) = (starts.as_mut_ptr(), starts.len());
    answer(|out| unsafe {
        plpgsql_split_in_code(t, text.len(), m, m_length, s, s_length, separator, out)
    })
}

pub fn requote_dollar_literals(text: &[u8], output: &mut [u8]) -> Answer {
    let (t, o, o_length) = (text.as_ptr(), output.as_mut_ptr(), output.len());
    answer(|out| unsafe { plpgsql_requote_dollar_literals(t, text.len(), o, o_length, out) })
}

pub fn requoted_length(text: &[u8]) -> Answer {
    let t = text.as_ptr();
    answer(|out| unsafe { plpgsql_requoted_length(t, text.len(), out) })
}

pub fn has_unterminated_dollar_quote(text: &[u8]) -> Answer {
    let t = text.as_ptr();
    answer(|out| unsafe { plpgsql_has_unterminated_dollar_quote(t, text.len(), out) })
}

pub fn has_exception_handler(text: &[u8], map: &mut [u8]) -> Answer {
    let (t, m, m_length) = (text.as_ptr(), map.as_mut_ptr(), map.len());
    answer(|out| unsafe { plpgsql_has_exception_handler(t, text.len(), m, m_length, out) })
}

pub fn transform_body(text: &[u8], output: &mut [u8], work: &mut [u8], spare: &mut [u8]) -> Answer {
    let (t, o, o_length) = (text.as_ptr(), output.as_mut_ptr(), output.len());
    let (w, w_length) = (work.as_mut_ptr(), work.len());
    let (s, s_length) = (spare.as_mut_ptr(), spare.len());
    answer(|out| unsafe {
        plpgsql_transform_body(t, text.len(), o, o_length, w, w_length, s, s_length, out)
    })
}

pub fn is_closed(text: &[u8], map: &mut [u8]) -> Answer {
    let (t, m, m_length) = (text.as_ptr(), map.as_mut_ptr(), map.len());
    answer(|out| unsafe { plpgsql_is_closed(t, text.len(), m, m_length, out) })
}

pub fn preprocess(
    text: &[u8],
    output: &mut [u8],
    work: &mut [u8],
    spare: &mut [u8],
    declared: &mut [u8],
    records: &mut [u32],
) -> Answer {
    let (t, t_length) = (text.as_ptr(), text.len());
    let (o, o_length) = (output.as_mut_ptr(), output.len());
    let (w, w_length) = (work.as_mut_ptr(), work.len());
    let (s, s_length) = (spare.as_mut_ptr(), spare.len());
    let (d, d_length) = (declared.as_mut_ptr(), declared.len());
    let (r, r_length) = (records.as_mut_ptr(), records.len());
    answer(|out| unsafe {
        plpgsql_preprocess(
            t, t_length, o, o_length, w, w_length, s, s_length, d, d_length, r, r_length, out,
        )
    })
}

pub fn transform_body_by_levels(
    text: &[u8],
    table: &[u8],
    output: &mut [u8],
    work: &mut [u8],
    spare: &mut [u8],
) -> Answer {
    let (t, t_length, l, l_length) = (text.as_ptr(), text.len(), table.as_ptr(), table.len());
    let (o, o_length) = (output.as_mut_ptr(), output.len());
    let (w, w_length) = (work.as_mut_ptr(), work.len());
    let (s, s_length) = (spare.as_mut_ptr(), spare.len());
    answer(|out| unsafe {
        plpgsql_transform_body_by_levels(
            t, t_length, l, l_length, o, o_length, w, w_length, s, s_length, out,
        )
    })
}

pub fn preprocess_by_levels(
    text: &[u8],
    table: &[u8],
    output: &mut [u8],
    work: &mut [u8],
    spare: &mut [u8],
    declared: &mut [u8],
    records: &mut [u32],
) -> Answer {
    let (t, t_length, l, l_length) = (text.as_ptr(), text.len(), table.as_ptr(), table.len());
    let (o, o_length) = (output.as_mut_ptr(), output.len());
    let (w, w_length) = (work.as_mut_ptr(), work.len());
    let (s, s_length) = (spare.as_mut_ptr(), spare.len());
    let (d, d_length) = (declared.as_mut_ptr(), declared.len());
    let (r, r_length) = (records.as_mut_ptr(), records.len());
    answer(|out| unsafe {
        plpgsql_preprocess_by_levels(
            t, t_length, l, l_length, o, o_length, w, w_length, s, s_length, d, d_length, r,
            r_length, out,
        )
    })
}
