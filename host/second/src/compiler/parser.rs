//! The parser: document 01's grammar, a function for each of its rules. It
//! gives refusals 2 and 3 and nothing else: what names and numbers mean is
//! judged only in a text free of these.

use super::scanner::{Kind, Scanner};
use super::syntax::*;
use super::Refusal;
use crate::table::Span;
use std::ops::Range;

type Parsed<T> = Result<T, Refusal>;

pub struct Parser<'t, 's> {
    scanner: Scanner<'t>,
    syntax: &'s mut Syntax,
}

pub fn parse(text: &[u8], syntax: &mut Syntax) -> Parsed<()> {
    syntax.clear();
    let mut parser = Parser { scanner: Scanner::new(text), syntax };
    parser.module()
}

impl Parser<'_, '_> {
    fn module(&mut self) -> Parsed<()> {
        self.expect(Kind::Module)?;
        self.syntax.module = self.name()?.span;
        self.expect(Kind::LeftBrace)?;
        while self.accept(Kind::Const) {
            self.constants()?;
        }
        while self.accept(Kind::Sensor) {
            self.sensors()?;
        }
        while self.accept(Kind::Actuator) {
            self.actuators()?;
        }
        while self.accept(Kind::Task) {
            self.task()?;
        }
        while self.stands_on(Kind::Start) || self.stands_on(Kind::Mode) {
            self.mode()?;
        }
        self.expect(Kind::RightBrace)?;
        self.expect(Kind::End)
    }

    fn constants(&mut self) -> Parsed<()> {
        while self.stands_on(Kind::Name) {
            let name = self.name()?;
            self.expect(Kind::Equals)?;
            let value = self.value()?;
            self.expect(Kind::Semicolon)?;
            self.syntax.constants.push(Constant { name, value });
        }
        Ok(())
    }

    fn sensors(&mut self) -> Parsed<()> {
        while self.stands_on(Kind::Name) {
            let kind = self.name()?.span;
            let name = self.name()?;
            let getter = self.uses()?;
            self.syntax.sensors.push(Sensor { kind, name, getter });
        }
        Ok(())
    }

    fn actuators(&mut self) -> Parsed<()> {
        while self.stands_on(Kind::Name) {
            let kind = self.name()?.span;
            let name = self.name()?;
            self.expect(Kind::Becomes)?;
            let value = self.value()?;
            let setter = self.uses()?;
            self.syntax.actuators.push(Actuator { kind, name, value, setter });
        }
        Ok(())
    }

    fn task(&mut self) -> Parsed<()> {
        let name = self.name()?;
        self.expect(Kind::LeftBrace)?;
        let first_input = self.syntax.inputs.len();
        while self.accept(Kind::Input) {
            self.inputs()?;
        }
        let first_output = self.syntax.outputs.len();
        while self.accept(Kind::Output) {
            self.outputs()?;
        }
        let function = self.uses()?;
        self.expect(Kind::RightBrace)?;
        self.syntax.tasks.push(Task {
            name,
            inputs: first_input..self.syntax.inputs.len(),
            outputs: first_output..self.syntax.outputs.len(),
            function,
        });
        Ok(())
    }

    fn inputs(&mut self) -> Parsed<()> {
        while self.stands_on(Kind::Name) {
            let kind = self.name()?.span;
            let name = self.name()?;
            self.expect(Kind::Semicolon)?;
            self.syntax.inputs.push(Input { kind, name });
        }
        Ok(())
    }

    fn outputs(&mut self) -> Parsed<()> {
        while self.stands_on(Kind::Name) {
            let kind = self.name()?.span;
            let name = self.name()?;
            self.expect(Kind::Becomes)?;
            let value = self.value()?;
            self.expect(Kind::Semicolon)?;
            self.syntax.outputs.push(Output { kind, name, value });
        }
        Ok(())
    }

    fn mode(&mut self) -> Parsed<()> {
        let start = self.stands_on(Kind::Start).then_some(self.scanner.start as u32);
        if start.is_some() {
            self.scanner.next();
        }
        self.expect(Kind::Mode)?;
        let name = self.name()?;
        self.expect(Kind::LeftBracket)?;
        self.word(b"period")?;
        self.expect(Kind::Equals)?;
        let period = self.number()?;
        let microseconds_per_unit = self.unit()?;
        self.expect(Kind::RightBracket)?;
        self.expect(Kind::LeftBrace)?;
        let activities = self.activities()?;
        self.expect(Kind::RightBrace)?;
        self.syntax.modes.push(Mode { start, name, period, microseconds_per_unit, activities });
        Ok(())
    }

    fn unit(&mut self) -> Parsed<u64> {
        let microseconds = if self.scanner.bytes() == b"ms" { 1000 } else { 1 };
        if microseconds == 1000 {
            self.word(b"ms")?;
        } else {
            self.word(b"us")?;
        }
        Ok(microseconds)
    }

    fn activities(&mut self) -> Parsed<Range<usize>> {
        let first = self.syntax.activities.len();
        while self.accept(Kind::Task) {
            self.section(Parser::invocation)?;
        }
        while self.accept(Kind::Actuator) {
            self.section(Parser::update)?;
        }
        while self.accept(Kind::Mode) {
            self.section(Parser::switch)?;
        }
        Ok(first..self.syntax.activities.len())
    }

    /// The activities of one section; all of them begin with `[`.
    fn section(&mut self, deed: fn(&mut Self) -> Parsed<Deed>) -> Parsed<()> {
        while self.stands_on(Kind::LeftBracket) {
            let bracket = self.scanner.start as u32;
            self.scanner.next();
            self.word(b"freq")?;
            self.expect(Kind::Equals)?;
            let frequency = self.number()?;
            self.expect(Kind::RightBracket)?;
            let guard = self.guard()?;
            let deed = deed(self)?;
            self.expect(Kind::Semicolon)?;
            self.syntax.activities.push(Activity { bracket, frequency, guard, deed });
        }
        Ok(())
    }

    fn guard(&mut self) -> Parsed<Option<Guard>> {
        if !self.accept(Kind::If) {
            return Ok(None);
        }
        let name = self.name()?.span;
        let arguments = self.references()?;
        self.expect(Kind::Then)?;
        Ok(Some(Guard { name, arguments }))
    }

    fn invocation(&mut self) -> Parsed<Deed> {
        let task = self.name()?;
        let ports = self.references()?;
        Ok(Deed::Invoke { task, ports })
    }

    fn update(&mut self) -> Parsed<Deed> {
        let actuator = self.name()?;
        self.expect(Kind::Becomes)?;
        let port = self.reference()?;
        Ok(Deed::Update { actuator, port })
    }

    fn switch(&mut self) -> Parsed<Deed> {
        Ok(Deed::Switch { mode: self.name()? })
    }

    /// Ports or arguments in parentheses. Both have one form here: whether a
    /// name is a sensor, a task or a constant is no matter of syntax.
    fn references(&mut self) -> Parsed<Range<usize>> {
        let first = self.syntax.references.len();
        self.expect(Kind::LeftParenthesis)?;
        if !self.stands_on(Kind::RightParenthesis) {
            loop {
                let reference = self.reference()?;
                self.syntax.references.push(reference);
                if !self.accept(Kind::Comma) {
                    break;
                }
            }
        }
        self.expect(Kind::RightParenthesis)?;
        Ok(first..self.syntax.references.len())
    }

    fn reference(&mut self) -> Parsed<Reference> {
        let first = self.name()?;
        let second = if self.accept(Kind::Dot) { Some(self.name()?) } else { None };
        Ok(Reference { first, second })
    }

    fn value(&mut self) -> Parsed<Value> {
        let at = self.scanner.start as u32;
        match self.scanner.kind {
            Kind::True | Kind::False => {
                let word = (self.scanner.kind == Kind::True) as i32;
                self.scanner.next();
                Ok(Value::Boolean { at, word })
            }
            Kind::Name => Ok(Value::Constant(self.name()?)),
            _ => {
                let negative = self.accept(Kind::Minus);
                Ok(Value::Number { at, negative, digits: self.number()? })
            }
        }
    }

    /// `uses` and what it names, the end of many declarations.
    fn uses(&mut self) -> Parsed<Span> {
        self.expect(Kind::Uses)?;
        let name = self.name()?.span;
        self.expect(Kind::Semicolon)?;
        Ok(name)
    }

    fn name(&mut self) -> Parsed<Name> {
        let name = Name { span: self.scanner.span(), hash: self.scanner.hash };
        self.expect(Kind::Name)?;
        Ok(name)
    }

    fn number(&mut self) -> Parsed<Number> {
        let at = self.scanner.start as u32;
        let digits = self.scanner.bytes();
        self.expect(Kind::Number)?;
        Ok(Number { at, value: value_of(digits) })
    }

    /// A plain name that only counts as itself in this one place.
    fn word(&mut self, word: &[u8]) -> Parsed<()> {
        if self.stands_on(Kind::Name) && self.scanner.bytes() != word {
            return Err(self.refusal());
        }
        self.expect(Kind::Name)
    }

    fn stands_on(&self, kind: Kind) -> bool {
        self.scanner.kind == kind
    }

    fn accept(&mut self, kind: Kind) -> bool {
        let stands = self.stands_on(kind);
        if stands {
            self.scanner.next();
        }
        stands
    }

    /// Steps over the token only if it is the wanted one: nothing behind a
    /// token that isn't allowed is ever looked at.
    fn expect(&mut self, kind: Kind) -> Parsed<()> {
        if self.accept(kind) {
            Ok(())
        } else {
            Err(self.refusal())
        }
    }

    fn refusal(&self) -> Refusal {
        let number = if self.stands_on(Kind::Bad) { 2 } else { 3 };
        Refusal { number, offset: self.scanner.start as u32 }
    }
}

fn value_of(digits: &[u8]) -> u64 {
    digits
        .iter()
        .fold(0u64, |value, &digit| value.saturating_mul(10).saturating_add((digit - b'0') as u64))
}
