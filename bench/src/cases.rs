//! The cases: on which strings a call is counted at each length. A length is that of the text, or of what is put into a text that fills
//! half of the capacity.

/// What a call is made on.
#[derive(Clone)]
pub struct Case {
    /// The text that the string holds, or that a constructor is given.
    pub held: String,
    /// How many bytes of the array are before the text.
    pub offset: usize,
    /// The same text in UTF-16.
    pub units: Vec<u16>,
    /// A text that is put in, or that the other string of a comparison holds.
    pub given: String,
    /// The character that is put in, or dropped.
    pub ch: char,
    /// Where something is put in or taken out, and where a range ends.
    pub start: usize,
    pub end: usize,
}

/// A length of a curve.
#[derive(Clone, Copy)]
pub struct At {
    pub capacity: usize,
    pub size: usize,
    is_mixed: bool,
}

impl At {
    /// On a text, with an index in its middle and a range of a quarter of it from there on.
    fn of(self, held: String) -> Case {
        let start = held.floor_char_boundary(held.len() / 2);
        let end = held.floor_char_boundary(start + held.len() / 4);
        let ch = if self.is_mixed { '€' } else { 'c' };
        Case { units: held.encode_utf16().collect(), held, offset: 0, given: String::new(), ch, start, end }
    }

    /// So many bytes of ASCII, or of characters of one to four bytes, and `x` where a whole character has no room.
    fn some(self, size: usize) -> String {
        let pattern = if self.is_mixed { "aé€🤔" } else { "abcdefghij" };
        let mut text = pattern.repeat(size / pattern.len() + 1);
        text.truncate(text.floor_char_boundary(size));
        text += &"x".repeat(size - text.len());
        text
    }

    pub fn text(self) -> Option<Case> {
        Some(self.of(self.some(self.size)))
    }

    pub fn front(self) -> Option<Case> {
        let case = self.text()?;
        Some(Case { start: 0, end: case.held.floor_char_boundary(self.size / 4), ..case })
    }

    pub fn room_for_one(self) -> Option<Case> {
        self.text().filter(|case| self.size + case.ch.len_utf8() <= self.capacity)
    }

    /// The same at the end of the array, where there is no room behind.
    pub fn no_room_behind(self) -> Option<Case> {
        Some(Case { offset: self.capacity - self.size, ..self.room_for_one()? })
    }

    /// With a text that is not empty and ends where the array ends.
    pub fn window(self) -> Option<Case> {
        let case = Case { offset: self.capacity - self.size, ..self.text()? };
        (self.size > 0).then_some(case)
    }

    /// With another string of the same text, which lies as the first one does.
    pub fn equal(self) -> Option<Case> {
        let case = self.text()?;
        Some(Case { given: case.held.clone(), ..case })
    }

    pub fn differs(self, index: usize) -> Option<Case> {
        let case = self.text()?;
        let given = format!("{}z{}", &case.held[..index], case.held.get(index + 1..)?);
        Some(Case { given, ..case })
    }

    pub fn last_differs(self) -> Option<Case> {
        self.differs(self.size.checked_sub(1)?)
    }

    /// With a text of the length put into one that fills half of the capacity.
    pub fn put(self) -> Option<Case> {
        let half = self.capacity / 2;
        let fits = half + self.size <= self.capacity;
        fits.then(|| Case { given: self.some(self.size), ..self.of(self.some(half)) })
    }

    /// With a text of the length again and again, so that it has to be cut.
    pub fn put_too_much(self) -> Option<Case> {
        Some(Case { given: self.some(self.size).repeat(9), ..self.of(self.some(self.capacity / 2)) })
    }

    /// A line of the length, of which as much leaves in front as comes behind.
    pub fn lines(self) -> Option<Case> {
        let case = self.put()?;
        (self.size <= case.held.len()).then_some(Case { end: self.size, ..case })
    }

    /// With spaces at both ends, half of all.
    pub fn spaced(self) -> Option<Case> {
        let spaces = " ".repeat(self.size / 4);
        Some(self.of(format!("{spaces}{}{spaces}", self.some(self.size - 2 * spaces.len()))))
    }
}

/// A call, by its name, on a case at each length.
pub struct Curve {
    pub title: &'static str,
    pub call: &'static str,
    pub make: fn(At) -> Option<Case>,
}

impl Curve {
    /// The cases of so many lengths, and one for each length for which the capacity has room.
    pub fn cases(&self, capacity: usize, step: usize) -> impl Iterator<Item = Case> {
        let is_mixed = self.title.ends_with("mixed");
        (0..=capacity).step_by(step).filter_map(move |size| (self.make)(At { capacity, size, is_mixed }))
    }
}
