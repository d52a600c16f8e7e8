//! JUnit XML for a test server: a suite with properties and cases.

use quick_xml::events::{BytesDecl, BytesEnd, BytesStart, BytesText, Event};
use quick_xml::{Result, Writer};

use crate::failure::Failure;
use crate::files::printable;

pub struct Suite {
    pub name: String,
    pub tests: usize,
    pub failures: usize,
    pub errors: usize,
    pub skipped: usize,
    pub seconds: f64,
    pub timestamp: Option<String>,
    pub properties: Vec<(String, String)>,
    pub cases: Vec<Case>,
}

pub struct Case {
    pub name: String,
    /// None where it passed.
    pub wrong: Option<Wrong>,
}

pub struct Wrong {
    /// `failure` or `error`.
    pub kind: &'static str,
    pub message: String,
    pub text: String,
}

type Xml = Writer<Vec<u8>>;

impl Suite {
    pub fn xml(&self) -> std::result::Result<Vec<u8>, Failure> {
        let mut xml = Writer::new_with_indent(Vec::new(), b' ', 2);
        let done = self.write(&mut xml);
        done.map_err(|error| Failure::bad(format!("the JUnit XML: {error}")))?;
        let mut bytes = xml.into_inner();
        bytes.push(b'\n');
        Ok(bytes)
    }

    fn write(&self, xml: &mut Xml) -> Result<()> {
        xml.write_event(Event::Decl(BytesDecl::new("1.0", Some("UTF-8"), None)))?;
        let mut attributes = vec![
            ("name", legal(&self.name)),
            ("tests", self.tests.to_string()),
            ("failures", self.failures.to_string()),
            ("errors", self.errors.to_string()),
            ("skipped", self.skipped.to_string()),
            ("time", format!("{:.3}", self.seconds)),
        ];
        attributes.extend(self.timestamp.clone().map(|time| ("timestamp", time)));
        xml.write_event(Event::Start(start("testsuite", &attributes)))?;
        if !self.properties.is_empty() {
            xml.write_event(Event::Start(BytesStart::new("properties")))?;
            for (name, value) in &self.properties {
                let attributes = [("name", legal(name)), ("value", legal(value))];
                xml.write_event(Event::Empty(start("property", &attributes)))?;
            }
            xml.write_event(Event::End(BytesEnd::new("properties")))?;
        }
        self.cases.iter().try_for_each(|case| case.write(xml))?;
        xml.write_event(Event::End(BytesEnd::new("testsuite")))
    }
}

impl Case {
    fn write(&self, xml: &mut Xml) -> Result<()> {
        let attributes = [("classname", "vbmodel.judge".to_string()), ("name", legal(&self.name))];
        let case = start("testcase", &attributes);
        let Some(Wrong { kind, message, text }) = &self.wrong else {
            return xml.write_event(Event::Empty(case));
        };
        xml.write_event(Event::Start(case))?;
        let inner = start(kind, &[("message", legal(message))]);
        if text.is_empty() {
            xml.write_event(Event::Empty(inner))?;
        } else {
            let text: Vec<String> = text.lines().map(legal).collect();
            xml.write_event(Event::Start(inner))?;
            xml.write_event(Event::Text(BytesText::new(&text.join("\n"))))?;
            xml.write_event(Event::End(BytesEnd::new(*kind)))?;
        }
        xml.write_event(Event::End(BytesEnd::new("testcase")))
    }
}

fn start<'a>(name: &'a str, attributes: &[(&str, String)]) -> BytesStart<'a> {
    let mut start = BytesStart::new(name);
    attributes.iter().for_each(|(name, value)| start.push_attribute((*name, value.as_str())));
    start
}

/// A text without characters that XML cannot hold.
fn legal(text: &str) -> String {
    printable(text).replace(['\u{FFFE}', '\u{FFFF}'], "\u{FFFD}")
}
