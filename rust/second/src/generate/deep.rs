//! Long programs and shared types that take a solver without care far too long.
//!
//! Each program is given as lines that are separated by white space.

/// Type rows from the first to the last, each an arrow that uses an earlier one twice.
fn doubling_rows(first: usize, last: usize, step: usize, qualifier: &str) -> String {
    let row = |row| format!(" T,{row},ARROW,{qualifier},{0},{qualifier},{0}", row - step);
    (first..=last).map(row).collect()
}

/// Row 63 is ANY and takes the type of row 62, which has 2 to the 62 paths.
pub fn unknown_takes_shared_type() -> String {
    format!(
        "T,0,ANY {} T,63,ANY P,0,g1,62 P,1,g2,63
         E,0,VAR,1 E,1,LAM,1,0 E,2,VAR,0 E,3,APP,1,2 E,4,LAM,0,3",
        doubling_rows(1, 62, 1, "g0")
    )
}

/// The unknown row 0 would have to be row 63, which has it at the ends of 2 to the 63 paths.
pub fn shared_type_would_contain_itself() -> String {
    format!(
        "T,0,ANY {} P,0,g1,63 P,1,g2,0
         E,0,VAR,1 E,1,LAM,1,0 E,2,VAR,0 E,3,APP,1,2 E,4,LAM,0,3",
        doubling_rows(1, 63, 1, "g0")
    )
}

/// Two doubling chains of 31 arrows over rows 0 and 1 are made equal at rows 62 and 63.
pub fn two_doubling_chains(one: &str, other: &str) -> String {
    let mut types = format!("T,0,{one} T,1,{other}");
    for row in 2..64 {
        let qualifier = if row % 2 == 0 { "g0" } else { "g1" };
        types += &doubling_rows(row, row, 2, qualifier);
    }
    format!(
        "{types} P,0,PLAIN,62 P,1,PLAIN,63
         E,0,VAR,0 E,1,LAM,0,0 E,2,VAR,1 E,3,APP,1,2 E,4,LAM,1,3"
    )
}

/// Row 62 against row 63 of one doubling chain: row 0 would be row 1.
pub fn chains_of_different_lengths(lowest: &str) -> String {
    format!(
        "T,0,{lowest} {} P,0,PLAIN,62 P,1,PLAIN,63
         E,0,VAR,0 E,1,LAM,0,0 E,2,VAR,1 E,3,APP,1,2 E,4,LAM,1,3",
        doubling_rows(1, 63, 1, "PLAIN")
    )
}

/// Row 63 has 2 to the 63 paths, and the last of its qualifiers stands with row 62: the lines alone have no typing if it is a scheme.
pub fn shared_type_under(qualifier: &str) -> String {
    format!(
        "T,0,INT {} T,63,ARROW,PLAIN,62,{qualifier},62 P,0,PLAIN,63 E,0,VAR,0 E,1,LAM,0,0",
        doubling_rows(1, 62, 1, "PLAIN")
    )
}

/// The types of 30 parameters are made one by functions that give their argument, and then the result is applied.
///
/// Each of the 30 ANY rows has a second parameter that no row names; the last one is declared by this qualifier.
pub fn joined_functions(last: &str) -> String {
    let mut lines: String = (0..30).map(|row| format!(" T,{row},ANY")).collect();
    for own in 0..60 {
        let qualifier = if own == 59 { last.to_string() } else { format!("g{own}") };
        lines += &format!(" P,{own},{qualifier},{}", own % 30);
    }
    lines += " E,0,VAR,0";
    for own in 1..30 {
        let row = 3 * own - 2;
        lines += &format!(" E,{row},VAR,{own} E,{},LAM,{own},{row}", row + 1);
        lines += &format!(" E,{},APP,{},{}", row + 2, row + 1, row - 1);
    }
    lines += " E,88,NUM,1 E,89,APP,87,88 E,90,LAM,0,89";
    for own in 30..60 {
        lines += &format!(" E,{},LAM,{own},{}", own + 61, own + 60);
    }
    lines
}

/// Applications that build a type with many paths: y_k = x_k (x_k x_(k-1)) gives x_k an arrow
/// from and to the type of x_(k-1). Row 32 is the start of the type rows that x_31 is compared with.
pub fn shared_type_of_terms(row_0: &str, row_32: &str) -> String {
    // Parameters 0 to 31 are the x_k, 32 to 62 take the y_k, 63 has the last type row.
    let mut lines: String = (0..32).map(|row| format!("T,{row},ANY ")).collect();
    lines = lines.replacen("ANY", row_0, 1) + &format!("T,32,{row_32}");
    lines += &doubling_rows(33, 63, 1, "g0");
    for parameter in 0..64 {
        let type_row = if parameter < 63 { parameter % 32 } else { 63 };
        lines += &format!(" P,{parameter},PLAIN,{type_row}");
    }
    for level in 1..32 {
        let row = 5 * (level - 1);
        lines += &format!(" E,{row},VAR,{} E,{},VAR,{level}", level - 1, row + 1);
        lines += &format!(" E,{},APP,{},{row} E,{},VAR,{level}", row + 2, row + 1, row + 3);
        lines += &format!(" E,{},APP,{},{}", row + 4, row + 3, row + 2);
    }
    // Parameter 63 takes x_31.
    lines += " E,155,VAR,63 E,156,LAM,63,155 E,157,VAR,31 E,158,APP,156,157";
    for level in (1..32).rev() {
        let row = 159 + 2 * (31 - level);
        lines += &format!(" E,{row},LAM,{},{}", 31 + level, row - 1);
        lines += &format!(" E,{},APP,{row},{}", row + 1, 5 * level - 1);
    }
    for parameter in 0..32 {
        lines += &format!(" E,{},LAM,{parameter},{}", 221 + parameter, 220 + parameter);
    }
    lines
}

/// 128 leaves of x and 127 sums, then the LAM: 256 rows.
pub fn long_sum() -> String {
    let mut lines = String::from("T,0,ANY P,0,g0,0 E,0,VAR,0");
    for sum in 0..127 {
        let row = 2 * sum + 1;
        lines += &format!(" E,{row},VAR,0 E,{},OP,ADD,{},{row}", row + 1, row - 1);
    }
    lines + " E,255,LAM,0,254"
}

/// The same sum with a number in the place of each leaf but the one in row 0.
pub fn long_sum_with_numbers() -> String {
    let mut lines = long_sum();
    for row in (1..255).step_by(2) {
        lines = lines.replacen(&format!(" E,{row},VAR,0 "), &format!(" E,{row},NUM,1 "), 1);
    }
    lines
}

/// 128 numbers joined pair by pair to one sum: 255 rows, the last of them this operation.
pub fn sums_of_sums_of_numbers(last: &str) -> String {
    let mut lines: String = (0..128).map(|row| format!(" E,{row},NUM,{row}")).collect();
    for row in 128..255 {
        let operation = if row == 254 { last } else { "ADD" };
        let left = 2 * (row - 128);
        lines += &format!(" E,{row},OP,{operation},{left},{}", left + 1);
    }
    lines
}

/// x applied to 127 numbers, one after the other: a type of 127 arrows.
pub fn long_application() -> String {
    let mut lines = String::from("T,0,ANY P,0,g0,0 E,0,VAR,0");
    for application in 0..127 {
        let row = 2 * application + 1;
        lines += &format!(" E,{row},NUM,1 E,{},APP,{},{row}", row + 1, row - 1);
    }
    lines + " E,255,LAM,0,254"
}

/// f applied 126 times: its argument and its result are equal.
pub fn nested_applications() -> String {
    let mut lines = String::from("T,0,ANY T,1,ANY P,0,g0,0 P,1,g1,1 E,0,VAR,1");
    for application in 0..126 {
        let row = 2 * application + 1;
        lines += &format!(" E,{row},VAR,0 E,{},APP,{row},{}", row + 1, row - 1);
    }
    lines + " E,253,LAM,0,252 E,254,LAM,1,253"
}

/// Two parameters of one ANY row are each applied to 61 numbers and a last argument, then the results are joined.
pub fn long_types(last: [&str; 2], join: &str) -> String {
    let mut lines = String::from("T,0,ANY P,0,g0,0 P,1,g1,0 E,0,VAR,0 E,1,VAR,1");
    let (mut one, mut other) = (0, 1);
    for application in 0..62 {
        let arguments = if application == 61 { last } else { ["NUM,1"; 2] };
        let row = 4 * application + 2;
        lines += &format!(" E,{row},{} E,{},APP,{one},{row}", arguments[0], row + 1);
        let (argument, result) = (row + 2, row + 3);
        lines += &format!(" E,{argument},{} E,{result},APP,{other},{argument}", arguments[1]);
        (one, other) = (row + 1, row + 3);
    }
    lines + &format!(" E,250,{join},{one},{other} E,251,LAM,0,250 E,252,LAM,1,251")
}

/// Two parameters are applied to so many numbers each, then their two types are made equal.
pub fn towers_of_arrows(one: usize, other: usize) -> String {
    // Parameter 2 has the type of parameter 0 and takes parameter 1; parameter 3 takes the result.
    let types = "T,0,ANY T,1,ANY T,2,ANY P,0,g0,0 P,1,g1,1 P,2,g2,0 P,3,g3,2";
    let mut lines = String::from(types);
    let (left, right) = (2 * one, 2 * one + 1 + 2 * other);
    for (parameter, first, last) in [(0, 0, left), (1, left + 1, right)] {
        lines += &format!(" E,{first},VAR,{parameter}");
        for row in (first + 1..last).step_by(2) {
            lines += &format!(" E,{row},NUM,1 E,{},APP,{},{row}", row + 1, row - 1);
        }
    }
    let next = right + 1;
    let row = |step: usize| next + step;
    lines += &format!(" E,{next},VAR,2 E,{},LAM,2,{next} E,{},VAR,1", row(1), row(2));
    lines += &format!(" E,{},APP,{},{}", row(3), row(1), row(2));
    lines += &format!(" E,{},OP,EQ,{left},{right} E,{},LAM,3,{}", row(4), row(5), row(4));
    lines += &format!(" E,{},APP,{},{}", row(6), row(5), row(3));
    lines + &format!(" E,{},LAM,1,{} E,{},LAM,0,{}", row(7), row(6), row(8), row(7))
}

/// 63 parameters with a named variable each become one class, in rising or falling order.
pub fn joined_parameters(falling: bool) -> String {
    let parameter = |leaf: usize| if falling { 62 - leaf % 63 } else { leaf % 63 };
    let mut lines = String::new();
    for own in 0..63 {
        lines += &format!(" T,{own},ANY P,{own},g{own},{own}");
    }
    lines += &format!(" E,0,VAR,{}", parameter(0));
    for leaf in 1..97 {
        let row = 2 * leaf - 1;
        lines += &format!(" E,{row},VAR,{}", parameter(leaf));
        lines += &format!(" E,{},OP,ADD,{row},{}", row + 1, row - 1);
    }
    for own in 0..63 {
        lines += &format!(" E,{},LAM,{own},{}", 193 + own, 192 + own);
    }
    lines
}

/// The same in rising order, with the floor AH at all parameters but the last, and this one there.
pub fn joined_parameters_with_floors(last: &str) -> String {
    let mut lines = joined_parameters(false);
    for own in 0..63 {
        let line = format!(" P,{own},g{own},{own}");
        let floor = if own < 62 { "AH" } else { last };
        lines = lines.replacen(&format!("{line} "), &format!("{line},{floor} "), 1);
    }
    lines
}

/// A program with 64 named variables, 63 parameters and 256 rows, each PLAIN and an arrow.
///
/// Row 1 is INT to INT, row 2 takes row 1 to row 1. Parameter 0 has row 1 and parameter 33
/// has row 2. Parameters 1 to 32 have arrows like row 2, but with two named variables each.
/// Starting from parameter 0, each of these is applied once and then parameter 33 twice, so
/// every variable stands against a PLAIN argument or result.
pub fn greatest_report() -> String {
    let mut lines = String::from("T,0,INT T,1,ARROW,PLAIN,0,PLAIN,0 T,2,ARROW,PLAIN,1,PLAIN,1");
    for pair in 0..32 {
        let (argument, result) = (2 * pair, 2 * pair + 1);
        lines += &format!(" T,{},ARROW,g{argument},1,g{result},1", 3 + pair);
    }
    for parameter in 0..63 {
        let type_row = match parameter {
            1..=32 => 2 + parameter,
            33 => 2,
            _ => 1,
        };
        lines += &format!(" P,{parameter},PLAIN,{type_row}");
    }
    lines += " E,0,VAR,0";
    for application in 0..96 {
        let function = if application % 3 == 0 { application / 3 + 1 } else { 33 };
        let row = 1 + 2 * application;
        lines += &format!(" E,{row},VAR,{function} E,{},APP,{row},{}", row + 1, row - 1);
    }
    for parameter in 0..63 {
        let row = 193 + parameter;
        lines += &format!(" E,{row},LAM,{parameter},{}", row - 1);
    }
    lines
}

/// All of these programs, accepted and refused, each with its name.
pub fn all() -> Vec<(&'static str, String)> {
    let arrow = "ARROW,g2,0,g2,0";
    let two_constants =
        long_sum().replace("E,1,VAR,0", "E,1,ENC,AH,1").replace("E,253,VAR,0", "E,253,ENC,FHE,1");
    vec![
        ("an unknown takes a shared type", unknown_takes_shared_type()),
        ("a shared type would contain itself", shared_type_would_contain_itself()),
        ("two doubling chains of unknowns", two_doubling_chains("ANY", "ANY")),
        ("two doubling chains of which one is known", two_doubling_chains("INT", "ANY")),
        ("two doubling chains that clash at their ends", two_doubling_chains("INT", arrow)),
        ("chains of different lengths over INT", chains_of_different_lengths("INT")),
        ("chains of different lengths over ANY", chains_of_different_lengths("ANY")),
        ("a shared type with a scheme at its end", shared_type_under("AH")),
        ("a shared type of terms", shared_type_of_terms("ANY", "ANY")),
        ("a shared type of terms that clashes", shared_type_of_terms("INT", "ARROW,g0,1,g0,1")),
        ("a long sum", long_sum()),
        ("a long sum with two constants", two_constants),
        ("a long sum with numbers", long_sum_with_numbers()),
        ("sums of sums of numbers", sums_of_sums_of_numbers("ADD")),
        ("a product of sums of numbers", sums_of_sums_of_numbers("MUL")),
        ("a long application", long_application()),
        ("nested applications", nested_applications()),
        ("long types", long_types(["NUM,1", "NUM,1"], "OP,ADD")),
        ("long types with one constant", long_types(["NUM,1", "ENC,AH,1"], "OP,ADD")),
        ("long types with two constants", long_types(["ENC,MH,1", "ENC,AH,1"], "OP,ADD")),
        ("long types that clash", long_types(["NUM,1", "NUM,1"], "APP")),
        ("joined functions", joined_functions("g59")),
        ("joined functions of which one is declared AH", joined_functions("AH")),
        ("towers of arrows", towers_of_arrows(61, 61)),
        ("towers of arrows of different heights", towers_of_arrows(60, 62)),
        ("parameters joined in rising order", joined_parameters(false)),
        ("parameters joined in falling order", joined_parameters(true)),
        ("joined parameters with floors", joined_parameters_with_floors("FHE")),
        ("joined parameters with a floor missed", joined_parameters_with_floors("MH")),
        ("the greatest report", greatest_report()),
    ]
}
