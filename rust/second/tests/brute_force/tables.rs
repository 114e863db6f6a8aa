//! Random tiny tables.

use second::generate::Random;
use second::operation::Operation;
use second::{SchemeTable, Table};

/// The most that tiny tables may hold.
pub struct Limits {
    /// ANY rows.
    pub unknowns: usize,
    /// ARROW, LAM and APP rows.
    pub arrows: usize,
    /// ENC rows.
    pub constants: usize,
    /// Named variables.
    pub variables: usize,
    /// Term rows.
    pub rows: usize,
}

impl Limits {
    /// So many rows, and no ANY row.
    pub fn without_unknowns(rows: usize) -> Limits {
        Limits { unknowns: 0, arrows: 9, constants: 9, variables: 3, rows }
    }

    /// So many rows, no ANY row, no arrow, and one ENC row.
    pub fn without_arrows(rows: usize) -> Limits {
        Limits { arrows: 0, constants: 1, ..Limits::without_unknowns(rows) }
    }
}

/// The words of the lines of one table.
struct Words {
    /// PLAIN, behind two words of the scheme table: few make rows agree more often.
    constants: [String; 3],
    /// What may stand behind the first four fields of a P line; nothing and the first and the last scheme stand twice.
    floors: Vec<String>,
}

impl Words {
    /// Words of a scheme table.
    fn random(random: &mut Random, schemes: &SchemeTable) -> Words {
        let mut words = schemes.words();
        let codes = [random.below(words.len()), random.below(words.len()), 0];
        let constants = codes.map(|code| words[code].clone());
        words.insert(1, words[1].clone());
        words.extend(words.last().cloned());
        let floors = words.iter().map(|word| format!(",{word}"));
        Words {
            constants,
            floors: [String::new(), String::new()].into_iter().chain(floors).collect(),
        }
    }

    /// A declared qualifier: one of the constants or a named variable.
    fn qualifier(&self, random: &mut Random, limits: &Limits) -> String {
        match random.below(3) {
            0 => self.constants[random.below(3)].clone(),
            _ if limits.variables == 0 => self.constants[0].clone(),
            _ => format!("g{}", random.below(limits.variables)),
        }
    }
}

/// A random tiny table within the limits, mostly not closed: any rows may stand beside others.
pub fn tiny_table(random: &mut Random, schemes: &SchemeTable, limits: &Limits) -> Table {
    let mut table = Table::fresh_of(schemes.clone());
    let words = Words::random(random, schemes);
    let mut counts = [0; 3];
    for _ in 0..6 * limits.rows + 12 {
        let line = tiny_line(random, &table, limits, &words);
        // A qualifier may have the word of a kind, and stands in this place of a P line.
        let kind = line.split(',').nth(2).filter(|_| !line.starts_with('P'));
        let has = |words: &[&str]| kind.is_some_and(|kind| words.contains(&kind));
        let kinds = [has(&["ANY"]), has(&["ARROW", "LAM", "APP"]), has(&["ENC"])];
        let most = [limits.unknowns, limits.arrows, limits.constants];
        let full = (0..3).any(|kind| kinds[kind] && counts[kind] >= most[kind])
            || line.starts_with('T') && table.types.len() >= 4
            || line.starts_with('P') && table.params.len() >= 3
            || line.starts_with('E') && table.terms.len() >= limits.rows;
        // Refused lines are passed over.
        if !full && table.add(line.as_bytes()) == 0 {
            for (count, kind) in counts.iter_mut().zip(kinds) {
                *count += usize::from(kind);
            }
        }
    }
    table
}

/// A random tiny table that is closed; it may have more rows than the limits say.
pub fn closed_table(random: &mut Random, schemes: &SchemeTable, limits: &Limits) -> Table {
    loop {
        let mut table = tiny_table(random, schemes, limits);
        close(random, &mut table);
        if table.closed() {
            return table;
        }
    }
}

/// A random closed table in which a function of x is applied: at once, or as the argument of a function that applies it.
///
/// Parameter 0 is x, parameter 1 takes functions, and parameter 2 is bound outside. Only the limit on variables counts.
pub fn applying_table(random: &mut Random, schemes: &SchemeTable, limits: &Limits) -> Table {
    let words = Words::random(random, schemes);
    let mut table = Table::fresh_of(schemes.clone());
    let mut qualifier = || words.qualifier(random, limits);
    let (argument, result, x, outer) = (qualifier(), qualifier(), qualifier(), qualifier());
    for line in [
        "T,0,INT".to_string(),
        format!("T,1,ARROW,{argument},0,{result},0"),
        format!("P,0,{x},0"),
        "P,1,PLAIN,1".to_string(),
        format!("P,2,{outer},0"),
    ] {
        table.add(line.as_bytes());
    }
    let body = operand(random, &mut table, 0, &words);
    let function = add_row(&mut table, format!("LAM,0,{body}"));
    let argument = operand(random, &mut table, 2, &words);
    let call = if random.one_in(2) {
        add_row(&mut table, format!("APP,{function},{argument}"))
    } else {
        let taken = add_row(&mut table, "VAR,1".to_string());
        let applied = add_row(&mut table, format!("APP,{taken},{argument}"));
        let taking = add_row(&mut table, format!("LAM,1,{applied}"));
        add_row(&mut table, format!("APP,{taking},{function}"))
    };
    if random.one_in(2) {
        let other = leaf(random, &mut table, 2, &words);
        add_operation(random, &mut table, call, other);
    }
    close(random, &mut table);
    table
}

/// A random closed table about functions of ANY rows: parameters of any qualifiers are applied, handed to functions that give them back, or not used, and what comes out is applied too.
///
/// The last parameter is that of a function that gives its argument. The limits on ENC and term rows do not count.
pub fn function_table(random: &mut Random, schemes: &SchemeTable, limits: &Limits) -> Table {
    let words = Words::random(random, schemes);
    let mut table = Table::fresh_of(schemes.clone());
    let arrows = declare_types(random, &mut table, limits, &words);
    for own in 0..random.between(2, 4) {
        let (qualifier, type_row) =
            (words.qualifier(random, limits), random.below(table.types.len()));
        let floor =
            if random.one_in(4) { &words.floors[random.below(words.floors.len())] } else { "" };
        table.add(format!("P,{own},{qualifier},{type_row}{floor}").as_bytes());
    }
    apply(random, &mut table, arrows, &words);
    close(random, &mut table);
    table
}

/// Declares the ANY rows, perhaps INT, and arrows over any of them; gives how many arrows the limits leave.
fn declare_types(random: &mut Random, table: &mut Table, limits: &Limits, words: &Words) -> usize {
    for own in 0..limits.unknowns {
        table.add(format!("T,{own},ANY").as_bytes());
    }
    if random.one_in(3) {
        table.add(format!("T,{},INT", limits.unknowns).as_bytes());
    }
    let arrows = random.below(limits.arrows);
    for _ in 0..arrows {
        let mut part = || {
            let qualifier = words.qualifier(random, limits);
            format!("{qualifier},{}", random.below(table.types.len()))
        };
        let line = format!("T,{},ARROW,{},{}", table.types.len(), part(), part());
        assert_eq!(table.add(line.as_bytes()), 0, "for {line}");
    }
    limits.arrows - arrows
}

/// Adds a VAR and what is made of it with so many LAM and APP rows.
fn apply(random: &mut Random, table: &mut Table, mut arrows: usize, words: &Words) {
    let last = table.params.len() - 1;
    if random.one_in(3) {
        // Its result is joined to the others' at the end.
        let parameter = random.below(last);
        let (one, other) =
            (add_row(table, format!("VAR,{parameter}")), leaf(random, table, parameter, words));
        add_operation(random, table, one, other);
    }
    let mut row = add_row(table, format!("VAR,{}", random.below(last)));
    let mut may_join = true;
    while arrows > 0 {
        let (function, argument) = match random.below(4) {
            0 if may_join && arrows > 1 => {
                (may_join, arrows) = (false, arrows - 1);
                let body = add_row(table, format!("VAR,{last}"));
                (add_row(table, format!("LAM,{last},{body}")), row)
            }
            1 => (add_row(table, format!("VAR,{}", random.below(last))), row),
            _ => {
                let parameter = random.below(last);
                (row, leaf(random, table, parameter, words))
            }
        };
        row = add_row(table, format!("APP,{function},{argument}"));
        arrows -= 1;
    }
}

/// A random closed table in which one qualifier has several bounds: sums and products of one another, and any operation at the end.
///
/// Leaves are VARs of three parameters, and numbers. Only the limit on variables counts.
pub fn chained_table(random: &mut Random, schemes: &SchemeTable, limits: &Limits) -> Table {
    let words = Words::random(random, schemes);
    let mut table = Table::fresh_of(schemes.clone());
    table.add(b"T,0,INT");
    for own in 0..3 {
        let qualifier = words.qualifier(random, limits);
        let floor = &words.floors[random.below(words.floors.len())];
        table.add(format!("P,{own},{qualifier},0{floor}").as_bytes());
    }
    let mut row = chained_leaf(random, &mut table);
    for _ in 0..random.below(4) {
        let leaf = chained_leaf(random, &mut table);
        let operation = if random.one_in(2) { "ADD" } else { "MUL" };
        row = add_row(&mut table, format!("OP,{operation},{row},{leaf}"));
    }
    let leaf = chained_leaf(random, &mut table);
    add_operation(random, &mut table, row, leaf);
    close(random, &mut table);
    table
}

/// A VAR of a parameter, or a number.
fn chained_leaf(random: &mut Random, table: &mut Table) -> usize {
    match random.below(4) {
        3 => add_row(table, "NUM,1".to_string()),
        parameter => add_row(table, format!("VAR,{parameter}")),
    }
}

/// A leaf, or an operation on two, with VARs of one parameter.
fn operand(random: &mut Random, table: &mut Table, parameter: usize, words: &Words) -> usize {
    let one = leaf(random, table, parameter, words);
    if random.one_in(2) {
        return one;
    }
    let other = leaf(random, table, parameter, words);
    add_operation(random, table, one, other)
}

/// A number, a VAR of a parameter, or an encrypted number.
fn leaf(random: &mut Random, table: &mut Table, parameter: usize, words: &Words) -> usize {
    let scheme = &words.constants[random.below(2)];
    let term = match random.below(6) {
        0 | 1 => format!("VAR,{parameter}"),
        // The line of an ENC with PLAIN is refused.
        2 if scheme != "PLAIN" => format!("ENC,{scheme},1"),
        _ => "NUM,1".to_string(),
    };
    add_row(table, term)
}

/// Adds any operation on two rows.
fn add_operation(random: &mut Random, table: &mut Table, one: usize, other: usize) -> usize {
    let operation = Operation::ALL[random.below(5)].word();
    add_row(table, format!("OP,{operation},{one},{other}"))
}

/// Adds the next term row; gives its number.
fn add_row(table: &mut Table, term: String) -> usize {
    let row = table.terms.len();
    assert_eq!(table.add(format!("E,{row},{term}").as_bytes()), 0, "for {term}");
    row
}

/// Joins the rows that are no child by operations, and binds the parameters that are not bound.
fn close(random: &mut Random, table: &mut Table) {
    while let [one, other, ..] = unused_rows(table)[..] {
        add_operation(random, table, one, other);
    }
    for parameter in 0..table.params.len() {
        let rows = table.terms.len();
        // Refused where the parameter is bound, or where there is no row.
        table.add(format!("E,{rows},LAM,{parameter},{}", rows.saturating_sub(1)).as_bytes());
    }
}

/// The rows that are no child.
fn unused_rows(table: &Table) -> Vec<usize> {
    let used = |row: &usize| {
        let mut children = table.terms.iter().flat_map(|term| term.children());
        children.any(|child| usize::from(child) == *row)
    };
    (0..table.terms.len()).filter(|row| !used(row)).collect()
}

/// A random line for the next row of some list; it may be refused.
fn tiny_line(random: &mut Random, table: &Table, limits: &Limits, words: &Words) -> String {
    let (types, params, rows) = (table.types.len(), table.params.len(), table.terms.len());
    let mut qualifier = || words.qualifier(random, limits);
    let (one, other) = (qualifier(), qualifier());
    let (type_row, type_row2) = (random.below(types), random.below(types));
    let (parameter, row, row2) = (random.below(params), random.below(rows), random.below(rows));
    let scheme = &words.constants[random.below(3)];
    let operation = Operation::ALL[random.below(5)].word();
    let floor = &words.floors[random.below(words.floors.len())];
    match random.below(22) {
        0 => format!("T,{types},INT"),
        1 => format!("T,{types},ANY"),
        2 => format!("T,{types},ARROW,{one},{type_row},{other},{type_row2}"),
        3..=5 => format!("P,{params},{one},{type_row}{floor}"),
        6 | 7 => format!("E,{rows},NUM,1"),
        8 | 9 => format!("E,{rows},ENC,{scheme},1"),
        10..=12 => format!("E,{rows},VAR,{parameter}"),
        13 | 14 => format!("E,{rows},LAM,{parameter},{row}"),
        15 | 16 => format!("E,{rows},APP,{row},{row2}"),
        _ => format!("E,{rows},OP,{operation},{row},{row2}"),
    }
}
