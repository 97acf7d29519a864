//! Rows of waits as a table and as JSON.

use super::limit::Limit;
use super::rows::{Limited, Row};
use crate::json::{class_name, string};

/// The table of one text.
pub fn table(file: &str, rows: &[Row]) -> String {
    let grants: u64 = rows.iter().map(|row| row.grants).sum();
    let head = format!("{file}: grants {grants}; waits in bit times (10 ns)\n");
    if rows.is_empty() {
        return head;
    }
    let columns = line(["node", "class", "grants", "mean", "greatest", "limit"].map(String::from), "");
    head + &columns + &rows.iter().map(shown).collect::<String>()
}

/// A line in columns, with words behind them or none.
fn line([node, class, grants, mean, greatest, limit]: [String; 6], words: &str) -> String {
    let columns = format!("{node:>4} {class:<6} {grants:>6} {mean:>12} {greatest:>10} {limit:>8}");
    format!("{columns}  {words}").trim_end().to_string() + "\n"
}

fn shown(row: &Row) -> String {
    let limit = match row.limit {
        Limit::Within(limit) => limit.to_string(),
        Limit::Normal | Limit::Spent | Limit::Changed => "-".into(),
    };
    let Row { node, class, grants, greatest, .. } = row;
    let class = class_name(*class).into();
    let numbers = [node.to_string(), class, grants.to_string(), mean(row), greatest.to_string(), limit];
    line(numbers, &remark(row))
}

/// Why the greatest wait of a high row has no limit, and what is to be said of the others.
fn remark(row: &Row) -> String {
    match (reason(row.limit), row.limited) {
        (None | Some("normal"), _) => String::new(),
        (Some(why), None) => why.into(),
        (Some(why), Some(Limited { grants, greatest, limit })) => {
            format!("{why}; of {grants} with a limit the greatest is {greatest}, limit {limit}")
        }
    }
}

/// Why a wait has no limit.
fn reason(limit: Limit) -> Option<&'static str> {
    match limit {
        Limit::Within(_) => None,
        Limit::Normal => Some("normal"),
        Limit::Spent => Some("share spent"),
        Limit::Changed => Some("change"),
    }
}

fn mean(row: &Row) -> String {
    format!("{}.{}", row.mean_tenths / 10, row.mean_tenths % 10)
}

/// The same as JSON, one object a row.
pub fn objects(file: &str, rows: &[Row]) -> String {
    rows.iter().map(|row| object(file, row)).collect()
}

fn object(file: &str, row: &Row) -> String {
    let Row { node, grants, greatest, .. } = row;
    let which = format!("\"file\":{},\"node\":{node},\"class\":\"{}\"", string(file), class_name(row.class));
    let waits = format!("\"grants\":{grants},\"mean\":{},\"greatest\":{greatest}", mean(row));
    let limit = match (row.limit, reason(row.limit)) {
        (Limit::Within(limit), _) => format!("\"limit\":{limit}"),
        (_, why) => {
            let why = string(why.unwrap_or_default());
            format!("\"limit\":null,\"why\":{why},\"limited\":{}", limited(row.limited))
        }
    };
    format!("{{{which},{waits},{limit}}}\n")
}

fn limited(limited: Option<Limited>) -> String {
    match limited {
        None => "null".into(),
        Some(Limited { grants, greatest, limit }) => {
            format!("{{\"grants\":{grants},\"greatest\":{greatest},\"limit\":{limit}}}")
        }
    }
}

#[cfg(test)]
mod tests {
    use super::*;
    use lembuya::Class;

    fn row(class: Class, limit: Limit, limited: Option<Limited>) -> Row {
        Row { node: 3, class, grants: 8, mean_tenths: 210_003, greatest: 31_187, limit, limited }
    }

    fn page() -> [Row; 4] {
        let limited = Some(Limited { grants: 7, greatest: 12_000, limit: 38_066 });
        [
            row(Class::High, Limit::Within(38_066), limited),
            row(Class::High, Limit::Spent, limited),
            row(Class::High, Limit::Changed, None),
            row(Class::Normal, Limit::Normal, None),
        ]
    }

    #[test]
    fn a_table_has_columns_and_says_why_there_is_no_limit() {
        let spent = "share spent; of 7 with a limit the greatest is 12000, limit 38066";
        assert_eq!(
            table("a", &page()),
            format!(
                "a: grants 32; waits in bit times (10 ns)\n\
                 node class  grants         mean   greatest    limit\n   \
                    3 high        8      21000.3      31187    38066\n   \
                    3 high        8      21000.3      31187        -  {spent}\n   \
                    3 high        8      21000.3      31187        -  change\n   \
                    3 normal      8      21000.3      31187        -\n"
            )
        );
        assert_eq!(table("a", &[]), "a: grants 0; waits in bit times (10 ns)\n");
    }

    #[test]
    fn an_object_has_the_same() {
        let start = |class: &str| {
            format!("{{\"file\":\"a\",\"node\":3,\"class\":\"{class}\",\"grants\":8,\"mean\":21000.3,")
        };
        let rest = [
            "\"greatest\":31187,\"limit\":38066}",
            "\"greatest\":31187,\"limit\":null,\"why\":\"share spent\",\"limited\":{\"grants\":7,\"greatest\":12000,\"limit\":38066}}",
            "\"greatest\":31187,\"limit\":null,\"why\":\"change\",\"limited\":null}",
            "\"greatest\":31187,\"limit\":null,\"why\":\"normal\",\"limited\":null}",
        ];
        let expected: Vec<String> = ["high", "high", "high", "normal"]
            .iter()
            .zip(rest)
            .map(|(class, rest)| start(class) + rest)
            .collect();
        assert_eq!(objects("a", &page()), expected.join("\n") + "\n");
    }
}
