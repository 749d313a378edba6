// The calls of a string, one line each: what it is given, and by which rule it answers.
//
// `calls.rs` beside it makes each on a string, and the rule on a model of it. `rust/no_panic/links.rs` makes each in a program that links
// only if no call can panic, and reads no rule. What is given is a word, for which each of the two has a value. A call that more has to be
// asked of, or that needs no rule, stands in both.

edits! {
    // What is added at the end.
    try_push(ch) => |model, given| model.push_whole(&given.ch.to_string());
    try_push_str(text) => |model, given| model.push_whole(given.text());
    write_str(text) => |model, given| model.write_pieces(&[given.text()]);
    write_char(ch) => |model, given| model.write_pieces(&[&given.ch.to_string()]);
    try_write(printed) => |model, given| model.write_pieces(&[given.text()]);
    write_truncate(printed) => |model, given| model.is_cut(given.text());
    try_extend_chars(characters) => |model, given| {
        model.asks(given.source.characters, given);
        model.push_whole(given.text())
    };
    try_extend_strs(pieces) => |model, given| {
        model.asks(given.source.pieces, given);
        model.push_whole(given.text())
    };
    extend_chars_truncate(characters) => |model, given| {
        model.asks(given.source.characters, given);
        model.is_cut(given.text())
    };
    extend_strs_truncate(pieces) => |model, given| {
        model.asks(given.source.pieces, given);
        model.is_cut(given.text())
    };

    // What is inserted and replaced.
    try_insert(at, ch) => |model, given| model.insert_whole(given.at, &given.ch.to_string());
    try_insert_str(at, text) => |model, given| model.insert_whole(given.at, given.text());
    replace_range(range, text) => |model, given| model.replace_range(given);

    // What is removed.
    pop() => |model, _| model.text.pop();
    remove(at) => |model, given| model.remove(given.at);
    truncate(at) => |model, given| model.truncate(given.at);
    split_off(at) => |model, given| model.split_off(given.at);
    drain(range) => |model, given| model.drain(given);
    trim_in_place() => |model, _| model.text = model.text.trim().to_string();
    clear() => |model, _| model.text.clear();
}

constructors! {
    // Strings that are made whole.
    new() => |_, _| Ok::<_, Refusal>(());
    default() => |_, _| Ok::<_, Refusal>(());
    try_from_str(text) => |made, given| made.push_whole(given.text());
    const_try_from_str(text) => |made, given| made.push_whole(given.text());
    try_from_format(printed) => |made, given| made.write_pieces(&[given.text()]);
    try_from_iterator(pieces) => |made, given| {
        made.asks(given.source.pieces, given);
        made.push_whole(given.text())
    };
    try_from_chars(characters) => |made, given| {
        made.asks(given.source.characters, given);
        made.push_whole(given.text())
    };
    try_from_utf8(bytes) => |made, given| made.push_utf8(given.source.bytes);
    try_from_utf8_lossy(bytes) => |made, given| made.push_whole(&String::from_utf8_lossy(given.source.bytes));
    try_from_utf16(units) => |made, given| made.push_utf16(given.source.units);
    try_from_utf16_lossy(units) => |made, given| made.push_whole(&String::from_utf16_lossy(given.source.units));

    // Strings that are made of as much as fits.
    from_str_truncate(text) => |made, given| made.push_fitting(given.text());
    from_iterator_truncate(pieces) => |made, given| {
        made.asks(given.source.pieces, given);
        made.push_fitting(given.text())
    };
    from_chars_truncate(characters) => |made, given| {
        made.asks(given.source.characters, given);
        made.push_fitting(given.text())
    };
    from_utf8_truncate(bytes) => |made, given| match std::str::from_utf8(given.source.bytes) {
        Ok(text) => made.push_fitting(text),
        Err(_) => Err(Refusal::Utf8(Utf8)),
    };
    from_utf8_lossy_truncate(bytes) => |made, given| made.push_fitting(&String::from_utf8_lossy(given.source.bytes));
    from_utf16_truncate(units) => |made, given| made.push_utf16_cut(given.source.units);
    from_utf16_lossy_truncate(units) => |made, given| made.push_fitting(&String::from_utf16_lossy(given.source.units));
}
