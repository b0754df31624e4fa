//! Reads answer lines.
use crate::{Decision, Erring, EvalError, Response};

/// The response that an answer line has; `None` where it has another form.
pub(crate) fn response(text: &str) -> Option<Response> {
    let mut reader = Reader(text);
    reader.need("{\"decision\":")?;
    let decision = if reader.string()? == "allow" { Decision::Allow } else { Decision::Deny };
    reader.need(",\"determining\":[")?;
    let mut determining = Vec::new();
    while reader.need("]").is_none() {
        let _ = reader.need(",");
        determining.push(reader.string()?);
    }
    reader.need(",\"erring\":[")?;
    let mut erring = Vec::new();
    while reader.need("]").is_none() {
        let _ = reader.need(",");
        reader.need("{\"error\":")?;
        let error = EvalError::named(&reader.string()?)?;
        reader.need(",\"policy\":")?;
        erring.push(Erring { policy: reader.string()?, error });
        reader.need("}")?;
    }
    reader.need("}")?;
    Some(Response { decision, determining, erring })
}

/// What is left of a text.
struct Reader<'t>(&'t str);

impl Reader<'_> {
    /// Takes this word, if it is next.
    fn need(&mut self, word: &str) -> Option<()> {
        self.0 = self.0.strip_prefix(word)?;
        Some(())
    }

    /// Takes a JSON string.
    fn string(&mut self) -> Option<String> {
        self.need("\"")?;
        let mut text = String::new();
        loop {
            let (plain, rest) = self.0.split_at(self.0.find(['"', '\\'])?);
            text.push_str(plain);
            self.0 = rest;
            if self.need("\"").is_some() {
                return Some(text);
            }
            self.need("\\")?;
            text.push(self.escaped()?);
        }
    }

    /// Takes what is after a backslash.
    fn escaped(&mut self) -> Option<char> {
        let first = self.0.chars().next()?;
        self.0 = &self.0[first.len_utf8()..];
        Some(match first {
            '"' | '\\' | '/' => first,
            'b' => '\u{8}',
            'f' => '\u{c}',
            'n' => '\n',
            'r' => '\r',
            't' => '\t',
            'u' => {
                let high = self.unit()?;
                if !(0xD800..0xDC00).contains(&high) {
                    return char::from_u32(high);
                }
                self.need("\\u")?;
                return char::from_u32(0x10000 + ((high - 0xD800) << 10) + self.unit()?.checked_sub(0xDC00)?);
            }
            _ => return None,
        })
    }

    /// Takes four hexadecimal digits.
    fn unit(&mut self) -> Option<u32> {
        let digits = self.0.get(..4)?;
        self.0 = &self.0[4..];
        u32::from_str_radix(digits, 16).ok()
    }
}

#[cfg(test)]
mod tests {
    use super::*;

    #[test]
    fn a_response_has_all_that_its_line_has() {
        let line = r#"{"decision":"deny","determining":["a","b\"\\\u0007\ud83d\ude00é"],"erring":[{"error":"overflow","policy":"p"},{"error":"decimal","policy":"q"}]}"#;
        let read = response(line).unwrap();
        assert_eq!(read.decision, Decision::Deny);
        assert_eq!(read.determining, ["a", "b\"\\\u{7}😀é"]);
        assert_eq!(read.erring[0], Erring { policy: "p".into(), error: EvalError::Overflow });
        assert_eq!(read.erring[1], Erring { policy: "q".into(), error: EvalError::Decimal });
    }

    #[test]
    fn another_form_is_not_a_response() {
        for line in
            ["", "{\"refused\":502}", "{\"decision\":\"allow\"", "{\"decision\":\"allow\",\"determining\":[\"\\u12\"],\"erring\":[]}"]
        {
            assert_eq!(response(line), None);
        }
    }
}
