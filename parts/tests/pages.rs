//! The page of a list.

use parts::list::List;
use parts::planning::{Named, Wish, FEWEST_TIPS};

fn page(text: &str, k: Option<u16>) -> String {
    let list = List::read(text.as_bytes()).unwrap_or_else(|faults| panic!("{text:?}: {faults:?}"));
    Named::of_list(list).page("board.txt", k).expect("a page")
}

fn count(page: &str, words: &str) -> usize {
    page.matches(words).count()
}

/// Quick and best put A and B on tip 0 and C on tip 2; two placements are off tip 0.
const LIST: &str = "rack 3\nA x2 height=0.5 : 0\nB : 0-1 # both\nC x2 pitch=-1 : 2\n";

#[test]
fn page_has_each_part_with_its_tips() {
    let page = page(LIST, None);
    assert_eq!(count(&page, "<p>3 parts, 5 placements and a rack of 3 tips.</p>"), 1);
    let number = |words: &str| format!("<td class=\"number\">{words}</td>");
    let row = |cells: [&str; 10]| {
        let [no, part, quantity, tips, kept, quick, best, height, pitch, comment] = cells;
        let both = format!("<td class=\"tips\">{tips}</td><td class=\"tips\">{kept}</td>");
        let first = format!("<tr>{}<td>{part}</td>{}{both}", number(no), number(quantity));
        first + &[quick, best, height, pitch].map(number).concat() + &format!("<td>{comment}</td></tr>\n")
    };
    for cells in [
        ["0", "A", "2", "0", "0", "0", "0", "0.5", "", ""],
        ["1", "B", "1", "0-1", "0 <del>1</del>", "0", "0", "", "", "both"],
        ["2", "C", "2", "2", "2", "2", "2", "", "-1", ""],
    ] {
        assert_eq!(count(&page, &row(cells)), 1, "{cells:?} {page}");
    }
    assert_eq!(count(&page, "<span role=\"button\" tabindex=\"0\">"), 10);
    assert_eq!(count(&page, "tabindex=\"0\">kept, k 2</span>"), 1);
    // A head with a button element is not printed on every page.
    assert_eq!(count(&page, "<button"), 0);
}

#[test]
fn page_has_tips_used_and_changes() {
    let page = page(LIST, None);
    for (name, number) in [
        ("pairs", 4),
        ("tips used", 2),
        ("tip changes in the list&#x27;s order", 1),
        ("tip changes in the order by tips", 1),
        ("placements on tip 0", 3),
        ("placements on tip 2", 2),
    ] {
        let cell = format!("<td class=\"number\">{number}</td>");
        assert_eq!(count(&page, &format!("<tr><td>{name}</td>{cell}{cell}</tr>\n")), 1, "{name}");
    }
    assert_eq!(count(&page, "placements on tip 1"), 0);
}

#[test]
fn page_has_its_drawings_side_by_side() {
    let apart = page(include_str!("../../docs/example.txt"), None);
    for words in [
        ">quick:</tspan> 11 pairs on 3 tips<",
        ">best:</tspan> 12 pairs on 2 tips<",
        ">kept:</tspan> 8 tips struck, k 3<",
    ] {
        assert_eq!(count(&apart, words), 1, "{words}");
    }
    // Plans that are the same are drawn once.
    let with = page(LIST, None);
    for words in [">quick and best:</tspan> 4 pairs on 2 tips<", ">kept:</tspan> 1 tip struck, k 2<"] {
        assert_eq!(count(&with, words), 1, "{words}");
    }
    assert_eq!(count(&with, "</tspan>"), 2);
    // A cross on the struck tip, and one in the key.
    assert_eq!(count(&with, "stroke-width=\"2\""), 2);
    assert_eq!(count(&with, "<svg "), 1);
    let without = page(LIST, Some(3));
    assert_eq!((count(&without, "0 tips struck, k 3<"), count(&without, "stroke-width=\"2\"")), (1, 1));
}

#[test]
fn refusals_stand_on_the_page() {
    let gap = page("rack 3\nA : 1\nB : 0 2\n", None);
    assert_eq!(
        count(&gap, "<p class=\"refused\">There is no best plan: B is no run: it lacks tip 1, which A has (with the tips in the order 0 2 1 every part is a run).</p>\n"),
        1
    );
    // The exact plan stands in its place.
    assert_eq!(count(&gap, "<td>pairs</td><td class=\"number\">0</td><td class=\"number\">0</td>"), 1);
    assert_eq!((count(&gap, "<th class=\"number\">exact</th>"), count(&gap, "<th class=\"number\">best</th>")), (1, 0));
    assert_eq!(
        (count(&gap, ">quick and exact:</tspan> 0 pairs on 2 tips<"), count(&gap, "tabindex=\"0\">exact</span>")),
        (1, 1)
    );
    let wide: String = (0..21).map(|tip| format!(": {tip}\n")).collect();
    let wide = page(&format!("rack 21\n{wide}: 0 2\n"), None);
    assert_eq!(count(&wide, "<p class=\"refused\">There is no exact plan: refused 35: 21 tips are named"), 1);
    assert_eq!(count(&wide, "<td>pairs</td><td class=\"number\">1</td><td class=\"number\">-</td>"), 1);
    let bound = page(LIST, Some(1));
    let why = "Nothing is kept: refused 26: margin -1, no plan is within k 1; the least k is 2.";
    assert_eq!((count(&bound, why), count(&bound, "kept:</tspan> none<")), (1, 1));
    let none = "<p>No plan has at most 1 placement off the tip used most, so nothing is kept.</p>";
    assert_eq!((count(&bound, none), count(&bound, "Kept are")), (1, 0));
    assert_eq!(count(&page(LIST, None), "class=\"refused\""), 0);
}

#[test]
fn page_loads_nothing_and_runs_no_foreign_script() {
    let page = page("rack 1\n<script>BODY</script> : 0 # <b>&TITLE</b>\n", None);
    assert_eq!(count(&page, "<td>&lt;script&gt;BODY&lt;/script&gt;</td>"), 1);
    assert_eq!(count(&page, "<td>&lt;b&gt;&amp;TITLE&lt;/b&gt;</td>"), 1);
    assert_eq!((count(&page, "<script>"), count(&page, "<title>Plan of board.txt</title>")), (1, 1));
    assert_eq!(count(&page, "default-src 'none'"), 1);
    for words in ["href", "src=", "url(", "@import", "<link", "<img", "fetch", "https:"] {
        assert_eq!(count(&page, words), 0, "{words}");
    }
    // The name of a kind of document, which nothing loads.
    assert_eq!(count(&page, "http:"), count(&page, "xmlns=\"http://www.w3.org/2000/svg\""));
}

#[test]
fn job_files_and_empty_lists_have_pages() {
    let named = Named::of_list(List::read(b"rack 2\nA : 0\n").unwrap());
    let page_of_job = Named { file: named.file, list: None }.page("a <b>", None).unwrap();
    assert_eq!((count(&page_of_job, "<td>line 0</td>"), count(&page_of_job, "<h1>Plan of a &lt;b&gt;</h1>")), (1, 1));
    assert_eq!(count(&page("rack 2\n", None), "<p>0 parts, 0 placements and a rack of 2 tips.</p>"), 1);
}

#[test]
fn long_lists_are_drawn_in_pieces_of_a_page() {
    let list = |rack: usize, parts: usize| format!("rack {rack}\n") + &": 0-1\n".repeat(parts);
    for (parts, pieces) in [(0, 1), (1, 1), (16, 1), (17, 2), (512, 32)] {
        let page = page(&list(2, parts), None);
        let heads = ["quick and best", "kept"].map(|name| count(&page, &format!(">{name}:</tspan>")));
        assert_eq!((count(&page, "<svg "), heads), (pieces, [pieces; 2]), "{parts}");
        // Sums and key stand once, a square for each part and one in the key.
        let squares = count(&page, "height=\"22\" fill=\"#b8480b\"");
        assert_eq!((count(&page, ">parts on the tip</text>"), squares), (1, parts + 1), "{parts}");
        // Each piece has its own first row.
        assert_eq!(count(&page, " y=\"92\" width=\"22\""), pieces.min(parts), "{parts}");
    }
    assert_eq!((count(&page(&list(2, 1), None), "landscape"), count(&page(&list(12, 1), None), "landscape")), (0, 1));
}

#[test]
fn long_comments_are_cut_in_the_drawing_alone() {
    let comment = "m".repeat(50);
    let page = page(&format!("rack 1\nA : 0 # {comment}\n"), None);
    assert_eq!(count(&page, &format!("<td>{comment}</td>")), 1);
    assert_eq!(count(&page, &format!(">{}…</text>", "m".repeat(39))), 1);
}

#[test]
fn drawing_too_wide_for_paper_is_not_printed() {
    let list = |rack: usize| format!("rack {rack}\nA : 0-1\n");
    let too_wide = "The drawing is too wide for paper.";
    for (rack, is_wide) in [(23, false), (24, true), (64, true)] {
        let page = page(&list(rack), None);
        let told = [too_wide, "<div class=\"wide screen\"", "<svg "].map(|words| count(&page, words));
        assert_eq!(told, [is_wide as usize, is_wide as usize, 1], "{rack}");
        assert_eq!(count(&page, "size: landscape;"), 1, "{rack}");
        let named = Named::of_list(List::read(list(rack).as_bytes()).unwrap());
        let (sheet, is_landscape) = named.sheet("board.txt", None, Wish::default()).unwrap();
        assert_eq!(
            (count(&sheet, too_wide), count(&sheet, "<svg ")),
            (is_wide as usize, 1 - is_wide as usize),
            "{rack}"
        );
        assert_eq!(is_landscape, !is_wide, "{rack}");
    }
}

#[test]
fn sheet_has_the_plans_that_are_asked_for() {
    // Two tips do with 12 pairs, and the most pairs, 15, are on three.
    let list = "rack 3\nA : 0\nB1 : 0-1\nB2 : 0-1\nB3 : 0-1\nC1 : 1-2\nC2 : 1-2\nC3 : 1-2\nD : 2\n";
    let named = Named::of_list(List::read(list.as_bytes()).unwrap());
    let wish = Wish { mounted: Some(2), price: Some(FEWEST_TIPS), along: None };
    let (sheet, is_landscape) = named.sheet("<b>", Some(5), wish).unwrap();
    assert!(sheet.starts_with(
        "<h1>Plan of &lt;b&gt;</h1>\n<p>8 parts, 8 placements and a rack of 3 tips. Tip 2 is on the head.</p>\n"
    ));
    assert!(sheet.contains(
        "<tr><td>pairs</td><td class=\"number\">15</td><td class=\"number\">15</td><td class=\"number\">12</td></tr>"
    ));
    assert!(sheet.contains("<th>kept, k 5</th><th class=\"number\">quick</th><th class=\"number\">best</th><th class=\"number\">exact</th>"));
    assert!(sheet.contains(">exact:</tspan> 12 pairs on 2 tips<") && is_landscape);
    // Nothing that a page of its own has: no script, no style, nothing to click on.
    for words in ["<script", "style=", "role=", "class=\"screen\""] {
        assert_eq!(count(&sheet, words), 0, "{words}");
    }
}
