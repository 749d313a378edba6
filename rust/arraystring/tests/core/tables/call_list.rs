// The calls of tables that need no code of their own: a line for each call, with what it is given. The tests in Rust
// make their calls by a copy of this file, which rust/generate.py makes.
//
// Who uses a list gives it a macro, which makes a call of each line. The calls that need code of their own stand in
// `calls`.

/// The calls that are given no index and no range.
macro_rules! whole_calls {
    ($make:ident $with:tt) => {
        $make! {
            $with
            make_ascii_uppercase()
            make_ascii_lowercase()
            try_push(ch)
            try_push_str(text)
            push_str(text)
            extend_chars(chars)
            extend_strs(pieces)
            pop()
            clear()
            trim()
            trim_spaces()
            as_bytes()
        }
    };
}

pub(crate) use whole_calls;

/// The calls at an index.
macro_rules! index_calls {
    ($make:ident $with:tt) => {
        $make! {
            $with
            try_insert(index ch)
            try_insert_str(index text)
            insert_str(index text)
            truncate(index)
            remove(index)
            split_off(index)
        }
    };
}

pub(crate) use index_calls;

/// The calls on a range.
macro_rules! range_calls {
    ($make:ident $with:tt) => {
        $make! {
            $with
            get(range)
            drain(range)
            replace_range(range text)
        }
    };
}

pub(crate) use range_calls;
