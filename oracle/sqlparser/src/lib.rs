//! A stand-in for the crate of the same name: only the two error types that are named.

/// Errors of the tokenizer, which the oracle never runs.
pub mod tokenizer {
    #[derive(Debug)]
    pub struct TokenizerError;
}

/// Errors of the parser, which the oracle never runs.
pub mod parser {
    #[derive(Debug)]
    pub struct ParserError;
}
