//! Document 02's card (A.2) a second time, byte after byte: a line's form is walked along, and its numbers are added up digit
//! by digit.

use super::operator::NAMES;
use super::wrong::{Reading, Wrong};
use crate::request::{ARGUMENTS, COLUMNS, CardAnswer, LAYERS, NAN, WHOLE, WINDOW};

struct Layer {
    row: [i64; COLUMNS],
    args: Vec<u32>,
}

/// What the lines say that are in form.
#[derive(Default)]
struct Said {
    tray: [i64; 3],
    layers: Vec<Layer>,
}

/// The rest of a line.
struct Rest<'a> {
    reading: Reading,
    bytes: &'a [u8],
    unknown_name: bool,
}

impl<'a> Rest<'a> {
    fn is(&self, wrong: Wrong) -> bool {
        self.reading.is(wrong)
    }

    /// Goes past these bytes.
    fn past(&mut self, form: &str) -> Option<()> {
        for due in form.bytes() {
            let byte = *self.bytes.first()?;
            let tab = (due, byte) == (b' ', b'\t') && self.is(Wrong::CardTab);
            let capital = byte.to_ascii_lowercase() == due && self.is(Wrong::CardCapitals);
            if byte != due && !tab && !capital {
                return None;
            }
            self.bytes = &self.bytes[1..];
            if due == b' ' && self.is(Wrong::CardSpaces) {
                self.run(|byte| byte == b' ');
            }
        }
        Some(())
    }

    /// Goes past the bytes that are like this.
    fn run(&mut self, like: impl Fn(u8) -> bool) -> &'a [u8] {
        let count = self.bytes.iter().take_while(|byte| like(**byte)).count();
        self.first(count)
    }

    fn first(&mut self, count: usize) -> &'a [u8] {
        let (first, rest) = self.bytes.split_at(count);
        self.bytes = rest;
        first
    }

    fn number(&mut self) -> Option<i64> {
        let minus = self.bytes.starts_with(b"-");
        if minus || self.bytes.starts_with(b"+") && self.is(Wrong::CardPlus) {
            self.first(1);
        }
        let digits = self.run(|byte| byte.is_ascii_digit());
        let most = match self.reading.wrong {
            Some(Wrong::CardNineDigits) => 9,
            Some(Wrong::CardElevenDigits) => 11,
            Some(Wrong::CardMinusIsDigit) if minus => 9,
            _ => 10,
        };
        let zero_first = digits.len() > 1 && digits[0] == b'0' && !self.is(Wrong::CardLeadingZero);
        if digits.is_empty() || digits.len() > most || zero_first || minus && self.is(Wrong::CardNoMinus) {
            return None;
        }
        let n = digits.iter().fold(0, |n, digit| n * 10 + (digit - b'0') as i64);
        if minus && n == 0 && !self.is(Wrong::CardMinusZero) {
            return None;
        }
        let n = if minus { -n } else { n };
        Some(if self.is(Wrong::CardTo32Bits) { n as i32 as i64 } else { n })
    }

    /// Numbers, each after a space.
    fn numbers<const N: usize>(&mut self) -> Option<[i64; N]> {
        let mut numbers = [0; N];
        for n in &mut numbers {
            self.past(" ")?;
            *n = self.number()?;
        }
        Some(numbers)
    }

    /// The bytes that are taken for a name.
    fn spelling(&mut self) -> Option<&'a [u8]> {
        let known = |name: &[u8]| name.iter().all(u8::is_ascii_lowercase) && Reading::RIGHT.from_name(name).is_some();
        Some(match self.reading.wrong {
            Some(Wrong::CardTolerantName) => {
                let count = self.bytes.windows(2).position(|pair| pair == b" (")?;
                self.first(count)
            }
            Some(Wrong::CardCapitalName) => self.run(|byte| byte.is_ascii_alphabetic()),
            Some(Wrong::CardShortestName) => {
                let count = (1..self.bytes.len()).find(|count| known(&self.bytes[..*count]))?;
                self.first(count)
            }
            _ => self.run(|byte| byte.is_ascii_lowercase()),
        })
    }

    fn operator(&mut self) -> Option<i64> {
        if self.is(Wrong::CardOperatorNumber) && self.bytes.first().is_some_and(u8::is_ascii_digit) {
            return self.number();
        }
        let name = self.spelling()?;
        let wrong = match self.reading.wrong {
            Some(Wrong::CardNamePrefix) => Some(Wrong::NameByPrefix),
            Some(Wrong::CardNameLonger) => Some(Wrong::NameByStart),
            Some(Wrong::CardCurvesUnknown) => Some(Wrong::NameRefusesCurves),
            _ => None,
        };
        let operator = Reading { wrong }.from_name(name);
        self.unknown_name = operator.is_none();
        let operator = operator? as usize;
        let own = NAMES[operator].to_ascii_lowercase().as_bytes() == name;
        (own || !self.is(Wrong::CardOwnNames)).then_some(operator as i64)
    }

    fn argument(&mut self) -> Option<u32> {
        let capitals = self.is(Wrong::CardCapitalDigits);
        let digits = self.run(|byte| byte.is_ascii_hexdigit() && (capitals || !byte.is_ascii_uppercase()));
        let count = match self.reading.wrong {
            Some(Wrong::CardSevenDigits) if digits.len() == 7 => 7,
            Some(Wrong::CardNineHexDigits) if digits.len() == 9 => 9,
            _ => 8,
        };
        if digits.len() != count {
            return None;
        }
        let value = |digit: u8| (digit as char).to_digit(16).expect("a hexadecimal digit");
        let word = digits.iter().fold(0u32, |n, digit| (n << 4) | value(*digit));
        Some(match self.reading.wrong {
            Some(Wrong::CardNanStored) if f32::from_bits(word).is_nan() => NAN,
            Some(Wrong::CardBytesTurned) => word.swap_bytes(),
            _ => word,
        })
    }

    /// `(args ..)` after its space.
    fn arguments(&mut self) -> Option<Vec<u32>> {
        if self.is(Wrong::CardNoArguments) && self.bytes.starts_with(b")") {
            return Some(Vec::new());
        }
        self.past(" (args")?;
        if self.is(Wrong::CardEmptyArgument) && self.bytes.starts_with(b" )") {
            self.first(1);
        }
        let mut args = Vec::new();
        while self.past(")").is_none() {
            self.past(" ")?;
            args.push(self.argument()?);
        }
        let most = match self.reading.wrong {
            Some(Wrong::CardThreeArguments) => 3,
            Some(Wrong::CardFiveArguments) => 5,
            _ => 4,
        };
        let good = args.len() <= most;
        args.truncate(ARGUMENTS);
        good.then_some(args)
    }

    /// The byte 10 that ends a line, and nothing else.
    fn end(&mut self) -> Option<()> {
        match self.reading.wrong {
            Some(Wrong::CardTrailingSpace) => _ = self.run(|byte| byte == b' '),
            Some(Wrong::CardRest) => _ = self.run(|byte| byte != b'\n'),
            Some(Wrong::CardReturn) if self.bytes == b"\r\n" => _ = self.first(1),
            Some(Wrong::CardOpenEnd) if self.bytes.is_empty() => return Some(()),
            _ => {}
        }
        (self.bytes == b"\n").then_some(())
    }

    fn tray(&mut self) -> Option<[i64; 3]> {
        self.past("(tray ")?;
        let edition = self.number()?;
        if edition != 1 && !self.is(Wrong::CardAnyEdition) && !(edition == 2 && self.is(Wrong::CardEditionTwo)) {
            return None;
        }
        let tray = self.numbers()?;
        self.past(")")?;
        self.end()?;
        Some(tray)
    }

    fn layer(&mut self) -> Option<Layer> {
        self.past("(layer ")?;
        let operator = self.operator()?;
        self.past(" (place")?;
        let [gravity, right, down] = self.numbers()?;
        self.past(") (flags")?;
        let [flags] = self.numbers()?;
        self.past(") (source")?;
        let [start, width, height, channels] = self.numbers()?;
        self.past(")")?;
        let args = self.arguments()?;
        self.past(")")?;
        self.end()?;
        let odd = !(0..=9).contains(&gravity) || !(0..=63).contains(&flags);
        if odd && self.is(Wrong::CardChecksJob) {
            return None;
        }
        let count = args.len() as i64;
        let window = [0, 0, 2048, 2048];
        let said = [operator, gravity, right, down, flags, start, width, height, channels, count];
        let row = [&said[..], &window].concat().try_into().expect("ten numbers and four");
        Some(Layer { row, args })
    }
}

impl Reading {
    /// A text's lines, with their numbers.
    fn card_lines(self, text: &[u8]) -> Vec<(u64, &[u8])> {
        let text = match self.wrong {
            Some(Wrong::CardNul) => text.split(|byte| *byte == 0).next().unwrap_or(text),
            Some(Wrong::CardByteOrderMark) => text.strip_prefix(b"\xef\xbb\xbf").unwrap_or(text),
            _ => text,
        };
        let mut lines: Vec<_> = (1..).zip(text.split_inclusive(|byte| *byte == b'\n')).collect();
        match self.wrong {
            Some(Wrong::CardEmptyLines) => lines.retain(|(_, line)| *line != b"\n"),
            Some(Wrong::CardEmptyLastLine) => _ = lines.pop_if(|(_, line)| *line == b"\n"),
            _ => {}
        }
        lines
    }

    /// One line: whether it is in form, and no layer too many; if not, the fault.
    fn card_line(self, first: bool, line: &[u8], said: &mut Said) -> Result<(), u64> {
        let mut rest = Rest { reading: self, bytes: line, unknown_name: false };
        if first {
            said.tray = rest.tray().ok_or(12u64)?;
            return Ok(());
        }
        let layer = rest.layer();
        let fault: u64 = if rest.unknown_name && self.is(Wrong::CardUnknownName) { 3 } else { 12 };
        let most = match self.wrong {
            Some(Wrong::CardFifteenLayers) => LAYERS - 1,
            Some(Wrong::CardSeventeenLayers) => LAYERS + 1,
            _ => LAYERS,
        };
        said.layers.push(layer.filter(|_| said.layers.len() < most).ok_or(fault)?);
        Ok(())
    }

    /// The fault of a text and its line, if it has one.
    fn card_fault(self, text: &[u8], said: &mut Said) -> Option<(u64, u64)> {
        let lines = self.card_lines(text);
        let count = lines.len() as u64;
        let too_many = lines.len() > 1 + LAYERS;
        match self.wrong {
            Some(Wrong::CardEmptyTaken) if count == 0 => return None,
            Some(Wrong::CardEmptyAtZero) if count == 0 => return Some((12, 0)),
            Some(Wrong::CardTrayAlone) if count == 1 => return Some((12, 1)),
            Some(Wrong::CardTooManyFirst) if too_many => return Some((12, 2 + LAYERS as u64)),
            _ if count == 0 => return Some((12, 1)),
            _ => {}
        }
        let mut found = None;
        for (i, (number, line)) in lines.into_iter().enumerate() {
            if let Err(fault) = self.card_line(i == 0, line, said) {
                found = Some((fault, number));
                if !self.is(Wrong::CardLastBadLine) {
                    break;
                }
            }
        }
        found.map(|(fault, line)| match self.wrong {
            Some(Wrong::CardLineFromZero) => (fault, line - 1),
            Some(Wrong::CardLineOfLayer) if line > 1 => (fault, line - 1),
            Some(Wrong::CardTooManyAtEnd) if too_many && line == 2 + LAYERS as u64 => (fault, count),
            _ => (fault, line),
        })
    }

    /// Whether the lists have the lengths that they must have.
    fn card_lengths(self, said: &Said, table: usize, args: usize) -> bool {
        let (rows, words) = (LAYERS * COLUMNS, LAYERS * ARGUMENTS);
        let layers = said.layers.len();
        match self.wrong {
            Some(Wrong::CardTenNumbers) => table == LAYERS * WINDOW && args == words,
            Some(Wrong::CardTenNumbersToo) => [rows, LAYERS * WINDOW].contains(&table) && args == words,
            Some(Wrong::CardTableLonger) => table >= rows && args == words,
            Some(Wrong::CardArgumentsLonger) => table == rows && args >= words,
            Some(Wrong::CardTableOnly) => table == rows,
            Some(Wrong::CardArgumentsOnly) => args == words,
            Some(Wrong::CardLayersEnough) => table >= layers * COLUMNS && args >= layers * ARGUMENTS,
            _ => table == rows && args == words,
        }
    }

    fn card_row(self, layer: &Layer, said: &Said) -> [i64; COLUMNS] {
        let mut row = layer.row;
        let [width, height, _] = said.tray;
        match self.wrong {
            Some(Wrong::CardColumns(i)) => row.swap(i, i + 1),
            Some(Wrong::CardCountMissing) => row[WINDOW - 1] = 0,
            Some(Wrong::CardCountFour) => row[WINDOW - 1] = ARGUMENTS as i64,
            Some(Wrong::CardWindowEmpty) => row[WINDOW..].fill(0),
            Some(Wrong::CardWindowOfTray) => row[WINDOW..].copy_from_slice(&[0, 0, width, height]),
            Some(Wrong::CardWindowOfSource) => row.copy_within(6..8, WINDOW + 2),
            Some(Wrong::CardWindowTurned) => row[WINDOW..].rotate_left(2),
            Some(Wrong::CardWindowLess) => row[WINDOW + 2..].fill(2047),
            _ => {}
        }
        row
    }

    /// A row of the table, where the card has a layer for it or not.
    fn card_row_filled(self, layer: Option<&&Layer>, said: &Said, row: &mut [i64]) {
        let numbers = layer.map(|layer| self.card_row(layer, said));
        match (numbers, self.wrong) {
            (Some(numbers), Some(Wrong::CardWindowKept)) => row[..WINDOW].copy_from_slice(&numbers[..WINDOW]),
            (Some(numbers), _) => row.copy_from_slice(&numbers[..row.len().min(COLUMNS)]),
            (None, Some(Wrong::CardRowsKept)) => {}
            (None, Some(Wrong::CardWindowRowsKept)) => row[..WINDOW].fill(0),
            (None, Some(Wrong::CardWindowPastLayers)) => row.copy_from_slice(&[&[0; WINDOW][..], &WHOLE].concat()),
            (None, _) => row.fill(0),
        }
    }

    fn card_filled(self, said: &Said, table: &mut [i64], args: &mut [u32]) {
        let mut layers: Vec<&Layer> = said.layers.iter().collect();
        if self.is(Wrong::CardUpsideDown) {
            layers.reverse();
        }
        let ten = [Wrong::CardTenNumbers, Wrong::CardTenNumbersToo].map(|wrong| self.is(wrong)).contains(&true);
        let columns = if ten && table.len() == LAYERS * WINDOW { WINDOW } else { COLUMNS };
        for (k, row) in table.chunks_mut(columns).enumerate() {
            self.card_row_filled(layers.get(k), said, row);
        }
        for (k, words) in args.chunks_mut(ARGUMENTS).enumerate() {
            let given = layers.get(k).map_or(&[][..], |layer| &layer.args);
            let kept = match self.wrong {
                Some(Wrong::CardArgumentsKept) => k < layers.len(),
                Some(Wrong::CardArgumentRowsKept) => k >= layers.len(),
                _ => false,
            };
            if !kept {
                words.fill(0);
            }
            words[..given.len()].copy_from_slice(given);
        }
    }

    fn card_accepted(self, said: &Said) -> CardAnswer {
        let mut tray = said.tray;
        if let Some(Wrong::CardShape(i)) = self.wrong {
            tray.swap(i, i + 1);
        }
        let [width, height, channels] = tray;
        let count = said.layers.len() as i64;
        let layers = if self.is(Wrong::CardCountsLines) { count + 1 } else { count };
        let line = if self.is(Wrong::CardLineOfAccepted) { count as u64 + 1 } else { 0 };
        CardAnswer { number: 0, line, width, height, channels, layers }
    }

    fn card_refused(self, (number, line): (u64, u64), said: &Said) -> CardAnswer {
        let answer = CardAnswer { number, line, ..CardAnswer::refused(line) };
        let [width, height, channels] = said.tray;
        match self.wrong {
            Some(Wrong::CardShapeOfRefused) => CardAnswer { width, height, channels, ..answer },
            Some(Wrong::CardLayersOfRefused) => CardAnswer { layers: said.layers.len() as i64, ..answer },
            _ => answer,
        }
    }

    pub fn read_card(self, text: &[u8], table: &mut [i64], args: &mut [u32]) -> CardAnswer {
        let mut said = Said::default();
        let mut fault = self.card_fault(text, &mut said);
        let lent = self.card_lengths(&said, table.len(), args.len());
        let lines_first = fault.is_some() && self.is(Wrong::CardLengthsLast);
        if !lent && !lines_first {
            fault = Some((12, self.is(Wrong::CardLengthsAtOne) as u64));
            said = Said::default();
        }
        let Some(fault) = fault else {
            self.card_filled(&said, table, args);
            return self.card_accepted(&said);
        };
        if lent && self.is(Wrong::CardFilledFirst) {
            self.card_filled(&said, table, args);
        }
        if lent && self.is(Wrong::CardCleared) {
            table.fill(0);
            args.fill(0);
        }
        self.card_refused(fault, &said)
    }
}
