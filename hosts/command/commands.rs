//! The commands: their words, what they do, and what their help says.
use crate::arguments::Call;
use crate::edit;
use crate::failure::Failure;
use crate::jobs;

pub struct Command {
    pub name: &'static str,
    /// One that ends in `..` may be given several times, and one in brackets may be left out.
    pub operands: &'static [&'static str],
    /// Each with what it does.
    pub options: &'static [(&'static str, &'static str)],
    pub run: fn(&Call) -> Result<(), Failure>,
    pub does: &'static str,
    /// Further lines of its help, and those that it has together with others.
    pub more: &'static str,
    pub shared: &'static [&'static Shared],
}

/// A part of the help of several commands, with its heading in the manual.
pub struct Shared {
    pub heading: &'static str,
    pub text: &'static str,
}

pub const COMMANDS: [Command; 10] = [
    Command {
        name: "card",
        operands: &["FILE.."],
        options: &[NAMED],
        run: jobs::card,
        does: "print the card: the listing of the public copy",
        more: CARD,
        shared: &[&SEVERAL],
    },
    Command {
        name: "facts",
        operands: &["FILE.."],
        options: &[JSON, NAMED],
        run: jobs::facts,
        does: "print all that a card may show: sections, counts, names, argument pairs",
        more: FACTS,
        shared: &[&SEVERAL, &FIELDS],
    },
    Command {
        name: "list",
        operands: &["FILE.."],
        options: &[NAMED],
        run: jobs::list,
        does: "print the listing, which tells packed sizes and unknown sections too",
        more: "",
        shared: &[&SEVERAL],
    },
    Command {
        name: "rows",
        operands: &["FILE.."],
        options: &[JSON, NAMED],
        run: jobs::rows,
        does: "print the rows, with their texts",
        more: ROWS,
        shared: &[&SEVERAL, &FIELDS],
    },
    Command {
        name: "public-copy",
        operands: &["FILE", "OUT"],
        options: &[FORCE],
        run: jobs::public_copy,
        does: "write the public copy",
        more: "",
        shared: &[&OUT],
    },
    Command {
        name: "rename",
        operands: &["FILE", "OLD", "NEW", "OUT"],
        options: &[FORCE, MERGE, EMPTY],
        run: jobs::rename,
        does: "rename the file OLD to NEW in every names section; all else stays",
        more: RENAME,
        shared: &[&OUT],
    },
    Command {
        name: "sheet",
        operands: &["FILE", "[OUT]"],
        options: &[FORCE],
        run: jobs::sheet,
        does: "write the sheet: everything that the payload holds, as lines of text",
        more: SHEET,
        shared: &[&OUT],
    },
    Command {
        name: "from-sheet",
        operands: &["SHEET", "OUT"],
        options: &[FORCE],
        run: jobs::from_sheet,
        does: "write the payload of a sheet",
        more: FROM_SHEET,
        shared: &[&OUT],
    },
    Command {
        name: "edit",
        operands: &["FILE", "[OUT]"],
        options: &[FORCE],
        run: edit::edit,
        does: "open the sheet in your editor, and then write its payload",
        more: EDIT,
        shared: &[&OUT],
    },
    Command {
        name: "check",
        operands: &["FILE.."],
        options: &[NAMED],
        run: jobs::check,
        does: "say 'accepted', or which refusal the payload gets and what it means",
        more: "",
        shared: &[&SEVERAL],
    },
];

pub const JSON: (&str, &str) = ("--json", "print JSON");
pub const NAMED: (&str, &str) = ("--named", "tell the file's name, of one file too");
pub const FORCE: (&str, &str) = ("--force", "replace OUT, or write to a terminal");
pub const MERGE: (&str, &str) = ("--merge", "rename to a name that another file has");
pub const EMPTY: (&str, &str) = ("--empty", "rename to the empty name");

const CARD: &str = "\
The card has a line for each known section, with how many files or pairs it counts. It is made from
the public facts alone, so that it tells no size of a source and no unknown section. It can have
65,536 lines.
";

const FACTS: &str = "\
The facts are taken from the public copy. After a header line, a line has five fields: the section's
place from 0; the fact, which is 'plain contents', 'packed contents', 'names' or 'arguments' for a
section, and 'name' or 'pair' for what is in it; the section's count; the name of a file or of an
argument; the argument's value. A field that does not apply is empty.

With --json an array of the sections, each {\"section\": .., \"count\": ..}. A section of names has an
array \"names\" of texts besides, and one of arguments an array \"pairs\" of {\"name\": .., \"value\": ..}.
";

const ROWS: &str = "\
After a header line, a line has ten fields: the row's tag and what it is called, its side, its numbers
A to E, its text, and a pair's value. By what the row is called, the numbers are:
{rows}

With --json an array of the rows, whose fields have the header line's names in lower case; a row
without a text, or without a value, has no such field.
";

const RENAME: &str = "\
It is refused where no file is named OLD, where another file is named NEW already (--merge renames
all the same), and where NEW is empty (--empty).
";

const SHEET: &str = "\
Secrecy, which covers the card and the public copy, does not cover the sheet: it shows everything that
the payload holds, packed and unknown bytes too. Without OUT it is printed.

A line has a word and fields, parted by tabs, and stands for a section or for an entry of the section
before it:
  contents   header field
  content    text
  packed     header field, count, uncompressed bytes, bytes
  names
  name       content size, text
  arguments
  pair       name, value
  unknown    kind, bytes

Numbers are decimal, and bytes are pairs of hexadecimal digits. In a text a backslash, a tab and a new
line are \\\\, \\t and \\n; all other characters stand as they are. A sheet with characters that do not
show, or that change how others show, goes to a terminal only with --force.
";

const FROM_SHEET: &str = "\
The lines are those that 'srci sheet' writes, and 'srci help sheet' tells: the payload's sheet is
SHEET itself, byte for byte. Each line is closed by a new line, the last one too. Nothing is passed
over: no empty line, no space beside a tab or in its place, no carriage return at the end of a word or
a number. SHEET may be -, for standard input.

A refused line is named by its number from 1, as in sky.sheet:12:, and shown.
";

const EDIT: &str = "\
The sheet ('srci help sheet' tells its lines) is opened in the editor that the variable VISUAL or, if
that is empty, EDITOR names. It may have arguments; one that would return at once needs them, as in
'code --wait'. When the editor closes, the sheet's payload is written to OUT, or in place of FILE
where no OUT is named: whole, or not at all. Where the sheet did not change, nothing is written. FILE
and OUT are files here, and never -.

Where the sheet is refused, its line is named and shown, and at a terminal you are asked whether to
edit again. Without a terminal, or if you do not, the exit status is 1, and the sheet is kept and its
name told. So it is where the editor fails, or OUT cannot be written, with exit status 3.

The sheet stands beside FILE, as sky.sheet beside sky.srci, or sky-2.sheet where there is one; you
alone can read it, and it is removed in the end. Secrecy does not cover it: it shows everything that
the payload holds, packed and unknown bytes too. Copies that an editor makes of it stay.

Neither FILE nor OUT is locked while the editor is open. Where FILE has changed when it closes,
nothing is written, and the sheet is kept.
";

pub const SHARED: [&Shared; 3] = [&SEVERAL, &FIELDS, &OUT];

const SEVERAL: Shared = Shared {
    heading: "SEVERAL FILES",
    text: "\
Of several files each is told with its name, and with --named one is, too: in a line '==> NAME <=='
above its card or listing, in a first field 'file' of a table, in JSON by a line for each file,
{\"file\": .., \"facts\": ..} or {\"file\": .., \"rows\": ..}. One that is refused or cannot be read does not
keep the others back; the exit status is the greatest of theirs.
",
};

const FIELDS: Shared = Shared {
    heading: "FIELDS",
    text: "\
Fields are parted by tabs. In a field a tab, a new line, a carriage return and a backslash are \\t,
\\n, \\r and \\\\; other characters that do not show, or that change how others show, are \\u{HEX}. JSON
escapes the same characters in its own way. On a terminal fields stand in columns, two spaces apart or
more; there white space in a field is \\u{HEX} too, but for single spaces between other characters.
",
};

const OUT: Shared = Shared {
    heading: "OUT",
    text: "\
OUT is written under another name beside its place, .srci-*.tmp, and then put there whole. A file
that is there already is replaced only with --force, and where OUT is a link, what it leads to. It is
locked (as by flock) from before FILE is read, unless that is a stream; a call that finds it locked
waits up to ten seconds, and then ends with 3. The new file keeps owner, group, permissions and ACL
of the old one as far as the caller may set them; where they cannot be kept, others lose what these
gave them.
",
};

pub const GENERAL: &str =
    "FILE may be -, for standard input, and OUT -, for standard output. Words after -- are no options.";

pub const STATUSES: [(&str, &str); 4] = [
    ("0", "done"),
    (
        "1",
        "refused, with a line on standard error; or OLD is no name, or NEW is one already",
    ),
    ("2", "wrong usage"),
    (
        "3",
        "a file cannot be read or written, the editor failed, or memory is lacking",
    ),
];

/// The same in a line: the help of the whole fits a screen.
pub const STATUSES_IN_SHORT: &str =
    "Exit status: 0 done; 1 refused; 2 wrong usage; 3 a file cannot be read or written, or no memory";

impl Command {
    pub fn usage(&self) -> String {
        let mut usage = format!("srci {}", self.name);
        for operand in self.operands {
            usage = format!("{usage} {operand}");
        }
        for (option, _) in self.options {
            usage = format!("{usage} [{option}]");
        }
        usage
    }

    /// Further lines of its help.
    pub fn more(&self) -> String {
        self.more.replace("{rows}\n", &numbers_of_rows())
    }
}

/// What the numbers of each row are, a line for each that has some.
fn numbers_of_rows() -> String {
    let named = |(row, numbers): &(&str, [&str; 5])| {
        let letters = ["A", "B", "C", "D", "E"].into_iter().zip(numbers);
        let told = letters.filter(|(_, number)| !number.is_empty());
        let told: Vec<String> = told
            .map(|(letter, number)| format!("{letter} {number}"))
            .collect();
        (!told.is_empty()).then(|| format!("  {row:15}  {}\n", told.join(", ")))
    };
    srci::ROWS.iter().filter_map(named).collect()
}
