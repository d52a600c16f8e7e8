//! Expressions of the assembler: numbers, names, `*` for the address of the line, parentheses, and C's operators with
//! C's order: unary - + ~, then * /, + -, << >>, &, ^, |. A division drops what is below one.

use crate::inputs::number;

/// A number; `known` is false where a name was used that is not yet placed.
#[derive(Clone, Copy, Debug, PartialEq, Eq)]
pub struct Value {
    pub number: i64,
    pub known: bool,
}

impl Value {
    pub fn known(number: i64) -> Value {
        Value { number, known: true }
    }

    pub const UNKNOWN: Value = Value { number: 0, known: false };
}

/// What names stand for.
pub trait Names {
    fn value_of(&mut self, name: &str) -> Result<Value, String>;
    /// The address of the line.
    fn here(&self) -> Value;
}

/// Values stay below this, so that no sum or product is lost.
const LARGEST: i64 = 1 << 40;
/// Parentheses and signs within each other.
const DEEPEST: usize = 100;

pub fn evaluate(text: &str, names: &mut dyn Names) -> Result<Value, String> {
    let mut parser = Parser { text, rest: text.trim(), depth: 0, names };
    let value = parser.binary(0)?;
    match parser.rest {
        "" => Ok(value),
        rest => Err(format!("`{rest}` follows the expression; an operator or the line's end must")),
    }
}

struct Parser<'a, 'b> {
    text: &'a str,
    rest: &'a str,
    depth: usize,
    names: &'b mut dyn Names,
}

/// The operators, those that bind least first.
const OPERATORS: [&[&str]; 6] = [&["|"], &["^"], &["&"], &["<<", ">>"], &["+", "-"], &["*", "/"]];

impl Parser<'_, '_> {
    fn took(&mut self, token: &str) -> bool {
        match self.rest.strip_prefix(token) {
            Some(rest) => {
                self.rest = rest.trim_start();
                true
            }
            None => false,
        }
    }

    fn binary(&mut self, level: usize) -> Result<Value, String> {
        let Some(operators) = OPERATORS.get(level) else { return self.unary() };
        let mut left = self.binary(level + 1)?;
        while let Some(operator) = operators.iter().find(|operator| self.took(operator)) {
            let right = self.binary(level + 1)?;
            let known = left.known && right.known;
            let number = match known {
                true => self.applied(operator, left.number, right.number)?,
                false => 0,
            };
            left = Value { number, known };
        }
        Ok(left)
    }

    fn applied(&self, operator: &str, a: i64, b: i64) -> Result<i64, String> {
        let shift = || u32::try_from(b).ok().filter(|&b| b < 64);
        let result = match operator {
            "|" => Some(a | b),
            "^" => Some(a ^ b),
            "&" => Some(a & b),
            "<<" | ">>" if shift().is_none() => {
                return Err(format!("`{}` shifts by {b}; it must be 0 to 63", self.text))
            }
            "<<" => shift().and_then(|b| a.checked_mul(1i64.checked_shl(b).filter(|n| *n > 0)?)),
            ">>" => shift().map(|b| a >> b),
            "+" => a.checked_add(b),
            "-" => a.checked_sub(b),
            "*" => a.checked_mul(b),
            _ if b == 0 => return Err(format!("`{}` divides by 0", self.text)),
            _ => Some(a / b),
        };
        result.filter(|n| n.abs() < LARGEST).ok_or(format!("`{}` is too large", self.text))
    }

    fn unary(&mut self) -> Result<Value, String> {
        self.depth += 1;
        if self.depth > DEEPEST {
            return Err(format!("the expression has over {DEEPEST} signs and parentheses"));
        }
        let value = if self.took("-") {
            let Value { number, known } = self.unary()?;
            Value { number: -number, known }
        } else if self.took("+") {
            self.unary()?
        } else if self.took("~") {
            let Value { number, known } = self.unary()?;
            Value { number: !number, known }
        } else if self.took("(") {
            let value = self.binary(0)?;
            if !self.took(")") {
                return Err(format!("`{}` lacks a `)`", self.text));
            }
            value
        } else if self.took("*") {
            self.names.here()
        } else {
            self.term()?
        };
        self.depth -= 1;
        Ok(value)
    }

    fn term(&mut self) -> Result<Value, String> {
        let inner = |c: char| c.is_alphanumeric() || c == '_' || c == '.';
        let end = self.rest.find(|c| !inner(c)).unwrap_or(self.rest.len());
        let (term, rest) = self.rest.split_at(end);
        if term.is_empty() {
            return Err("a number or a name is missing".to_string());
        }
        self.rest = rest.trim_start();
        if !term.starts_with(|c: char| c.is_ascii_digit()) {
            return self.names.value_of(term);
        }
        let number = i64::try_from(number::whole(term)?).ok().filter(|n| *n < LARGEST);
        number.map(Value::known).ok_or(format!("`{term}` is too large"))
    }
}

#[cfg(test)]
mod tests {
    use super::*;

    struct Two;

    impl Names for Two {
        fn value_of(&mut self, name: &str) -> Result<Value, String> {
            match name {
                "two" => Ok(Value::known(2)),
                "later" => Ok(Value::UNKNOWN),
                _ => Err(format!("`{name}` is not named")),
            }
        }

        fn here(&self) -> Value {
            Value::known(0x100)
        }
    }

    #[test]
    fn operators_have_the_order_of_c() {
        for (text, number) in [
            ("1 + 2 * 3", 7),
            ("(1 + 2) * 3", 9),
            ("7 / 2 * 2", 6),
            ("-7 / 2", -3),
            ("1 << 4 + 1", 32),
            ("0xF0 >> 4 & 6 ^ 1 | 8", 15),
            ("- -two", 2),
            ("~0 & 0xFF", 255),
            ("* + 2 * *", 0x300),
            ("*-two", 0xFE),
            ("-1 >> 1", -1),
            ("10 - 3 - 2", 5),
        ] {
            assert_eq!(evaluate(text, &mut Two), Ok(Value::known(number)), "{text}");
        }
        assert_eq!(evaluate("1 / later", &mut Two), Ok(Value::UNKNOWN));
    }

    #[test]
    fn what_is_wrong_is_named() {
        let deep = format!("{}1{}", "(".repeat(200), ")".repeat(200));
        for (text, part) in [
            ("1 +", "a number or a name is missing"),
            ("(1", "`(1` lacks a `)`"),
            ("1 2", "`2` follows the expression"),
            ("1)", "`)` follows the expression"),
            ("1 / (two - 2)", "divides by 0"),
            ("1 << 64", "shifts by 64; it must be 0 to 63"),
            ("1 << -1", "shifts by -1; it must be 0 to 63"),
            ("1 << 50", "is too large"),
            ("0x100000 * 0x100000", "is too large"),
            ("none", "`none` is not named"),
            ("0xG", "is not a whole number"),
            (&deep, "over 100 signs and parentheses"),
        ] {
            let wrong = evaluate(text, &mut Two).unwrap_err();
            assert!(wrong.contains(part), "{text}: {wrong}");
        }
    }
}
