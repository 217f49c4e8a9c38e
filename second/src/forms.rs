//! The table of the commands: the letters of each and the parameters that follow them.

pub type Letters = [u8; 2];

#[derive(Clone, Copy, Debug, PartialEq, Eq)]
pub enum Parameter {
    Integer,
    Point,
    Real,
    String,
    Array,
    Character,
}

#[derive(Debug, PartialEq, Eq)]
pub struct Form {
    pub letters: Letters,
    pub parameters: &'static [Parameter],
}

const fn form(letters: &Letters, parameters: &'static [Parameter]) -> Form {
    Form {
        letters: *letters,
        parameters,
    }
}

/// A command is drawn by its index here (`made.rs`).
/// Where document 01 prints NX the summary table of document 000 has NL, and "the table wins".
pub const FORMS: [Form; 21] = [
    form(b"KA", &[Parameter::Integer]),
    form(b"KH", &[Parameter::Integer]),
    form(b"KI", &[Parameter::Integer]),
    form(b"KX", &[Parameter::Integer]),
    form(b"LL", &[Parameter::Integer]),
    form(b"LV", &[Parameter::Integer]),
    form(b"NL", &[Parameter::Integer]),
    form(b"NR", &[Parameter::Integer, Parameter::Integer]),
    form(
        b"RU",
        &[Parameter::Integer, Parameter::Integer, Parameter::Integer],
    ),
    form(b"LF", &[Parameter::Point]),
    form(b"LG", &[Parameter::Point]),
    form(b"RH", &[Parameter::Point]),
    form(b"RS", &[Parameter::Point, Parameter::Point]),
    form(b"MR", &[Parameter::Real]),
    form(b"LT", &[Parameter::String]),
    form(b"RD", &[Parameter::Array]),
    form(b"RL", &[Parameter::Array]),
    form(b"KD", &[Parameter::Integer, Parameter::Array]),
    form(b"KO", &[Parameter::Integer, Parameter::Array]),
    form(b"RP", &[Parameter::Integer, Parameter::String]),
    form(b"IQ", &[Parameter::Character, Parameter::Character]),
];

pub fn begins_a_command(letter: u8) -> bool {
    FORMS.iter().any(|form| form.letters[0] == letter)
}

pub fn form_of(letters: Letters) -> Option<&'static Form> {
    FORMS.iter().find(|form| form.letters == letters)
}

#[cfg(test)]
mod tests {
    use super::*;

    #[test]
    fn the_letters_stand_in_their_order() {
        let letters: Vec<String> = FORMS
            .iter()
            .map(|form| form.letters.iter().copied().map(char::from).collect())
            .collect();
        assert_eq!(
            letters.join(" "),
            "KA KH KI KX LL LV NL NR RU LF LG RH RS MR LT RD RL KD KO RP IQ"
        );
    }

    #[test]
    fn six_letters_begin_a_command() {
        let first: Vec<u8> = (0..=255).filter(|&byte| begins_a_command(byte)).collect();
        assert_eq!(first, b"IKLMNR");
    }

    #[test]
    fn every_command_is_found_and_no_other() {
        for form in &FORMS {
            assert_eq!(form_of(form.letters), Some(form));
        }
        let found = (0..=255)
            .flat_map(|first| (0..=255).map(move |second| [first, second]))
            .filter(|&letters| form_of(letters).is_some());
        assert_eq!(found.count(), 21);
        assert_eq!(form_of(*b"NX"), None);
    }
}
