//! What must not be dropped. Each pair of tests differs in nothing but that the first drops what the second keeps: so it is for
//! dropping it that the first does not compile.

macro_rules! must_not_be_dropped {
    ($($name:ident: $made:literal;)*) => {
        $(
            #[doc = must_not_be_dropped!(@ "compile_fail", "", $made)]
            #[doc = must_not_be_dropped!(@ "no_run", "let _ = ", $made)]
            mod $name {}
        )*
    };
    (@ $mode:literal, $kept:literal, $made:literal) => {
        concat!(
            "```", $mode, "\n",
            "#![deny(unused_must_use)]\n",
            "use recovery_line::{Head, Journal, Participant, Process, Purpose, Refusal, Resend, Session, Set, Tables};\n",
            "fn drops(mut tables: Tables, one: Process, two: Process, advance: Purpose) -> Result<(), Refusal> {\n",
            $kept, $made, ";\n",
            "Ok(())\n",
            "}\n",
            "# fn main() {}\n",
            "```\n",
        )
    };
}

must_not_be_dropped! {
    answers: "Tables::read(&[1, 1])";
    tables: "Tables::read(&[1, 1])?";
    lines: "tables.find_line()?";
    searches: "tables.search(one, advance)?";
    orders: "tables.move_line(advance)?";
    sets: "tables.find_line()?.set";
    invitations: "tables.initiator(one, advance)?.1";
    replies: "tables.participant(one, two, advance)?.receive(&tables, &[])?";
    first_reports: "tables.invited(one, &[])?.1";
    initiators: "tables.initiator(one, advance)?.0";
    participants: "tables.participant(one, two, advance)?";
    sessions: "Session::start(&tables, one, advance)?";
    builders: "Tables::builder(1)";
    journals: "Journal::new(1)";
    iterators: "tables.move_line(advance)?.iter()";
    repeats: "tables.move_line(advance)?.sent_again()";
    lists: "Resend::read(1, &[0])?";
    lists_of_orders: "tables.restart_order(advance)?.resend()";
    looks: "tables.processes()";
    heads: "Head::of(&[])";
}
