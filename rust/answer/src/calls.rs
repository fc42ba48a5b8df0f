//! The calls: a request's fields go to the surface, and what comes back becomes an answer.

use krubbadin::surface::{self, COUNT, FAMILY, FIRST, OPERATORS, WORDS};
use krubbadin::surface::{DISTINGUISHED, DISTINGUISHER, PLAIN, STANDARD, WITH_DISTINGUISHER};
use krubbadin::Refusal;
use protocol::{words, Bad, Packet, Read, Span};

/// The most places or octets that a request may ask to be lent.
const MOST_LENT: u64 = 1 << 20;
/// The groups of four words that a rule has.
const GROUPS: usize = COUNT / 4;

/// Where requests are answered, with the lists that are lent. They are made once and grow to what is asked for.
pub struct Desk {
    input: Vec<u8>,
    input2: Vec<u8>,
    one: Lists,
    two: Lists,
    out: Vec<u8>,
}

/// The words of rules, and their operators.
struct Lists {
    words: Vec<u64>,
    values: Vec<u64>,
    octets: Vec<u8>,
}

/// What stands before a rule's components: its family and its distinguisher.
type Front = (u64, Option<[u8; 8]>);

/// What an answer says; a refusal may be all there is to say.
type Said = Read<Result<(), Refusal>>;

impl Desk {
    pub fn new() -> Self {
        Desk {
            input: Vec::new(),
            input2: Vec::new(),
            one: Lists::new(),
            two: Lists::new(),
            out: Vec::new(),
        }
    }

    /// Adds the answer to a request, a line.
    pub fn answer(&mut self, request: &[u8], answers: &mut Vec<u8>) {
        let start = answers.len();
        match self.call(request, answers) {
            Ok(Ok(())) => {}
            Ok(Err(refusal)) => {
                protocol::put_refusal(refusal.number().into(), refusal.carried(), answers);
            }
            Err(Bad(reason)) => {
                answers.truncate(start);
                answers.extend_from_slice(b"bad ");
                answers.extend_from_slice(request);
                answers.push(b' ');
                answers.extend_from_slice(reason.as_bytes());
            }
        }
        answers.push(b'\n');
    }

    fn call(&mut self, request: &[u8], answer: &mut Vec<u8>) -> Said {
        let mut fields = [&b""[..]; 6];
        let mut count = 0;
        for field in request.split(|&byte| byte == b'\t') {
            *fields.get_mut(count).ok_or(Bad(NO_CALL))? = field;
            count += 1;
        }
        match fields[..count] {
            [b"plain_read", octets, places] => self.read(PLAIN, 0, octets, places, answer),
            [b"std_read4", octets, places] => self.read(STANDARD, 4, octets, places, answer),
            [b"std_read6", octets, places] => self.read(STANDARD, 6, octets, places, answer),
            [b"std_read", family, expected, octets, places] => {
                let family = protocol::octet_number(family)?;
                self.std_read(expecting(expected)?, family, octets, places, answer)
            }
            [b"check", b"plain", octets] => self.check(PLAIN, 0, octets, answer),
            [b"check", family, octets] => {
                let family = protocol::octet_number(family).map_err(|_| Bad(NO_READING))?;
                self.check(STANDARD, family, octets, answer)
            }
            [b"plain_place", octets] => self.plain_place(octets, answer),
            [b"plain_write", rule, values, octets, room] => {
                self.write(PLAIN, 0, [rule, values, octets, room], answer)
            }
            [b"std_write", family, rule, values, octets, room] => {
                let family = protocol::octet_number(family)?;
                self.write(STANDARD, family, [rule, values, octets, room], answer)
            }
            [b"match", family, octets, packet] => {
                self.matches(protocol::octet_number(family)?, octets, packet, answer)
            }
            [b"rank", family, one, two] => {
                self.rank(protocol::octet_number(family)?, one, two, answer)
            }
            [b"choose", packet, rules] => self.choose(packet, rules, answer),
            [b"decide", packet, rules] => self.decide(packet, rules, answer),
            _ => Err(Bad(NO_CALL)),
        }
    }

    fn read(
        &mut self,
        standard: u8,
        family: u8,
        octets: &[u8],
        places: &[u8],
        answer: &mut Vec<u8>,
    ) -> Said {
        let (values, octets_lent) = protocol::pair(places)?;
        let (values, octets_lent) = (lent(values)?, lent(octets_lent)?);
        protocol::octets(octets, &mut self.input)?;
        let (used, operators) =
            match self
                .one
                .read(standard, family, &self.input, (values, octets_lent))
            {
                Ok(read) => read,
                Err(refusal) => return Ok(Err(refusal)),
            };
        put_read(used, operators, answer);
        answer.push(b' ');
        self.one.put_rule(answer);
        Ok(Ok(()))
    }

    fn std_read(
        &mut self,
        standard: u8,
        family: u8,
        octets: &[u8],
        places: &[u8],
        answer: &mut Vec<u8>,
    ) -> Said {
        let places = lent(protocol::number(places)?)?;
        protocol::octets(octets, &mut self.input)?;
        match self
            .one
            .read(standard, family, &self.input, (places, places))
        {
            Ok((used, operators)) => {
                put_read(used, operators, answer);
                answer.push(b' ');
                protocol::put_distinguisher(self.one.distinguisher(), answer);
                answer.push(b' ');
                self.one.put_rule(answer);
            }
            Err(refusal) => put_placed(refusal, answer),
        }
        Ok(Ok(()))
    }

    fn check(&mut self, standard: u8, family: u8, octets: &[u8], answer: &mut Vec<u8>) -> Said {
        protocol::octets(octets, &mut self.input)?;
        let said = surface::check(standard, family, &self.input);
        Ok(said
            .accepted()
            .map(|(used, operators)| put_read(used, operators, answer)))
    }

    fn plain_place(&mut self, octets: &[u8], answer: &mut Vec<u8>) -> Said {
        protocol::octets(octets, &mut self.input)?;
        match surface::check(PLAIN, 0, &self.input).accepted() {
            Ok((used, _)) => {
                answer.extend_from_slice(b"ok ");
                protocol::put_number(used as u64, answer);
            }
            Err(refusal) => put_placed(refusal, answer),
        }
        Ok(Ok(()))
    }

    fn write(
        &mut self,
        standard: u8,
        family: u8,
        [rule, values, octets, room]: [&[u8]; 4],
        answer: &mut Vec<u8>,
    ) -> Said {
        let lists = &mut self.one;
        lists.words.clear();
        let front = (u64::from(family), None);
        lists.push_rule(front, rule, 0, |_, content| protocol::span(content))?;
        protocol::values(values, &mut lists.values)?;
        protocol::octets(octets, &mut lists.octets)?;
        let room = lent(protocol::number(room)?)?;
        grow(&mut self.out, room);
        let out = &mut self.out[..room];
        let written = surface::write(
            standard,
            family,
            &lists.words,
            &lists.values,
            &lists.octets,
            out,
        );
        Ok(written.accepted().map(|(written, _)| {
            answer.extend_from_slice(b"ok ");
            protocol::put_octets(&out[..written], answer);
        }))
    }

    fn matches(&mut self, family: u8, octets: &[u8], packet: &[u8], answer: &mut Vec<u8>) -> Said {
        let packet = Packet::read(packet)?.words();
        protocol::octets(octets, &mut self.input)?;
        if let Err(refusal) = self.one.read_whole(family, &self.input) {
            return Ok(Err(refusal));
        }
        let one = &self.one;
        let said = surface::matches(&one.words[..WORDS], &one.values, &one.octets, &packet);
        Ok(said.accepted().map(|(yes, _)| {
            answer.extend_from_slice(if yes == 1 { b"yes" } else { b"no" });
        }))
    }

    fn rank(&mut self, family: u8, one: &[u8], two: &[u8], answer: &mut Vec<u8>) -> Said {
        // Both texts are read before either is put to the reading: a malformed request is answered as such.
        protocol::octets(one, &mut self.input)?;
        protocol::octets(two, &mut self.input2)?;
        let read = self.one.read_whole(family, &self.input);
        if let Err(refusal) = read.and_then(|()| self.two.read_whole(family, &self.input2)) {
            return Ok(Err(refusal));
        }
        let said = surface::rank(self.one.lent(), self.two.lent());
        Ok(said.accepted().map(|(said, _)| {
            answer.extend_from_slice([&b"equal"[..], b"first", b"second"][said.min(2)]);
        }))
    }

    fn choose(&mut self, packet: &[u8], rules: &[u8], answer: &mut Vec<u8>) -> Said {
        let chosen = self.chosen(packet, rules, |rule| {
            let bad = Bad("a rule to choose is FAMILY=RULE");
            let (family, rule) = protocol::cut(rule, b'=').ok_or(bad)?;
            Ok(((protocol::number(family)?, None), rule))
        })?;
        Ok(chosen.map(|place| put_chosen(place, answer)))
    }

    fn decide(&mut self, packet: &[u8], rules: &[u8], answer: &mut Vec<u8>) -> Said {
        let packet = packet
            .strip_prefix(b"p:")
            .ok_or(Bad("a packet to decide for is p:PACKET"))?;
        let chosen = self.chosen(packet, rules, |rule| {
            let bad = Bad("a rule to decide by is FAMILY!RD!RULE");
            let (family, rest) = protocol::cut(rule, b'!').ok_or(bad)?;
            let (distinguisher, rule) = protocol::cut(rest, b'!').ok_or(bad)?;
            let distinguisher = protocol::distinguisher(distinguisher)?;
            Ok(((protocol::number(family)?, distinguisher), rule))
        })?;
        match chosen {
            Ok(place) => put_chosen(place, answer),
            Err(refusal) => put_placed(refusal, answer),
        }
        Ok(Ok(()))
    }

    /// The place of the rule that decides; `front` gives what stands before a rule's components, and their text.
    fn chosen<'a>(
        &mut self,
        packet: &[u8],
        rules: &'a [u8],
        front: impl Fn(&'a [u8]) -> Read<(Front, &'a [u8])>,
    ) -> Read<Result<Option<usize>, Refusal>> {
        let packet = Packet::read(packet)?.words();
        let lists = &mut self.one;
        lists.clear();
        if rules != b"." {
            for rule in rules.split(|&byte| byte == b'&') {
                let (front, rule) = front(rule)?;
                let first = lists.values.len() as u64;
                let list = |lists: &mut Lists, content: &[u8]| lists.push_list(first, content);
                lists.push_rule(front, rule, first, list)?;
            }
        }
        let said = surface::choose(&lists.words, &lists.values, &lists.octets, &packet);
        let place = |(found, place)| Some(place).filter(|_| found == 1);
        Ok(said.accepted().map(place))
    }
}

const NO_CALL: &str = "no call has this name and this number of fields";
const NO_READING: &str = "a check is by plain or by a family, a number up to 255";

impl Lists {
    fn new() -> Self {
        Lists {
            words: Vec::new(),
            values: Vec::new(),
            octets: Vec::new(),
        }
    }

    fn clear(&mut self) {
        self.words.clear();
        self.values.clear();
        self.octets.clear();
    }

    fn lent(&self) -> (&[u64], &[u64], &[u8]) {
        (&self.words[..WORDS], &self.values, &self.octets)
    }

    /// Reads a rule, with exactly so many places lent: used, and the operators.
    fn read(
        &mut self,
        standard: u8,
        family: u8,
        input: &[u8],
        (values, octets): (usize, usize),
    ) -> Result<(usize, usize), Refusal> {
        grow(&mut self.words, WORDS);
        grow(&mut self.values, values);
        grow(&mut self.octets, octets);
        let words = &mut self.words[..WORDS];
        let (values, octets) = (&mut self.values[..values], &mut self.octets[..octets]);
        surface::read(standard, family, input, words, values, octets).accepted()
    }

    /// Reads a rule by the standard, with places for any.
    fn read_whole(&mut self, family: u8, input: &[u8]) -> Result<(), Refusal> {
        self.read(STANDARD, family, input, (OPERATORS, OPERATORS))
            .map(|_| ())
    }

    /// Adds a rule's words; `list` gives a list's start and count, and may add operators.
    fn push_rule(
        &mut self,
        (family, distinguisher): Front,
        rule: &[u8],
        first: u64,
        list: impl Fn(&mut Self, &[u8]) -> Read<Span>,
    ) -> Read<()> {
        let base = self.words.len();
        self.words.resize(base + WORDS, 0);
        let mut count = 0;
        for component in protocol::components(rule) {
            let component = component?.try_with_list(|content| list(self, content))?;
            // There are words for thirteen; that there are more is said by the count.
            if count < GROUPS {
                let group = base + 4 * count..base + 4 * count + 4;
                self.words[group].copy_from_slice(&words::of(&component));
            }
            count += 1;
        }
        self.words[base + COUNT] = count as u64;
        self.words[base + FAMILY] = family;
        self.words[base + FIRST] = first;
        if let Some(octets) = distinguisher {
            self.words[base + DISTINGUISHED] = 1;
            self.words[base + DISTINGUISHER] = u64::from_be_bytes(octets);
        }
        Ok(())
    }

    /// Adds a list's operators: its start, counted from the rule's first place, and its count.
    fn push_list(&mut self, first: u64, content: &[u8]) -> Read<Span> {
        let start = self.values.len() as u64;
        for operator in protocol::operators(content) {
            let (octet, value) = operator?;
            self.octets.push(octet);
            self.values.push(value);
        }
        Ok((start - first, self.values.len() as u64 - start))
    }

    /// The distinguisher of the rule that a reading left here.
    fn distinguisher(&self) -> Option<[u8; 8]> {
        let bits = self.words[DISTINGUISHER];
        Some(bits.to_be_bytes()).filter(|_| self.words[DISTINGUISHED] == 1)
    }

    /// Puts the rule that a reading left here.
    fn put_rule(&self, out: &mut Vec<u8>) {
        let count = self.words[COUNT] as usize;
        let groups = self.words.chunks_exact(4).take(count);
        let list = |(start, count): Span, out: &mut Vec<u8>| {
            let places = start as usize..(start + count) as usize;
            let octets = self.octets[places.clone()].iter().copied();
            let values = self.values[places].iter().copied();
            protocol::put_operators(octets.zip(values), out);
        };
        protocol::put_rule(groups.map(words::component), list, out);
    }
}

/// What a reading or a check accepts: the octets used, and the operators.
fn put_read(used: usize, operators: usize, answer: &mut Vec<u8>) {
    answer.extend_from_slice(b"ok ");
    protocol::put_number(used as u64, answer);
    answer.push(b' ');
    protocol::put_number(operators as u64, answer);
}

/// What a choice accepts: the place of the rule that decides, where one does.
fn put_chosen(place: Option<usize>, answer: &mut Vec<u8>) {
    answer.extend_from_slice(b"ok ");
    match place {
        None => answer.extend_from_slice(b"none"),
        Some(place) => protocol::put_number(place as u64, answer),
    }
}

/// A refusal with its place.
fn put_placed(refusal: Refusal, answer: &mut Vec<u8>) {
    let carried: Vec<u64> = refusal.carried().collect();
    let place = refusal.place().map(|place| place as u64);
    protocol::put_placed_refusal(refusal.number().into(), &carried, place, answer);
}

/// The standard reading that expects a distinguisher or none.
fn expecting(field: &[u8]) -> Read<u8> {
    match field {
        b"rd" => Ok(WITH_DISTINGUISHER),
        protocol::NONE => Ok(STANDARD),
        _ => Err(Bad("a distinguisher is expected by rd, none by -")),
    }
}

/// A number of places to be lent.
fn lent(places: u64) -> Read<usize> {
    if places > MOST_LENT {
        return Err(Bad("no more than 1048576 places or octets are lent"));
    }
    Ok(places as usize)
}

/// Makes a list at least so long.
fn grow<T: Default + Clone>(list: &mut Vec<T>, length: usize) {
    if list.len() < length {
        list.resize(length, T::default());
    }
}
