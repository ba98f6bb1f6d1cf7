//! The kinds of inputs, with the sizes they are made in.

use crate::{choices, clearances, fair, made, names, nodes, records, run::Given, Size};
use second::cases::{Case, NAME};

/// What is made twice as large to see how the cost grows.
#[derive(Clone, Copy, PartialEq, Eq, Debug)]
pub enum By {
    Book,
    Leaves,
}

/// A kind of input: what it is called, how it is made, the answer that both
/// sides give, its sizes in the bench and in the gate, and what is made twice as
/// large.
pub struct Kind {
    pub name: &'static str,
    pub make: fn(Size) -> Case,
    pub answer: usize,
    pub full: &'static [Size],
    pub cut: Size,
    pub by: By,
}

impl Kind {
    /// The input of a size, named after its kind.
    pub fn case(&self, size: Size) -> Case {
        Case { name: self.name.into(), ..(self.make)(size) }
    }

    /// The size of the gate, made twice as large.
    pub fn twice(&self) -> Size {
        match self.by {
            By::Book => Size { book: 2 * self.cut.book, ..self.cut },
            By::Leaves => Size { leaves: 2 * self.cut.leaves, ..self.cut },
        }
    }

    /// Whether a side gave the answer that is due: for a name, any but none
    /// where the book is good.
    pub fn is_due(&self, case: &Case, given: &Given) -> bool {
        match case.kind {
            NAME => (given.numbers[1] > 0) == (self.answer == 0),
            _ => given.numbers[0] == self.answer,
        }
    }
}

/// A size without a clearance.
const fn of(book: usize) -> Size {
    Size { book, leaves: 0 }
}

/// A size with a clearance.
const fn leaves(book: usize, leaves: usize) -> Size {
    Size { book, leaves }
}

/// A kind that is named after its generator.
macro_rules! kind {
    ($module:ident::$name:ident, $answer:expr, $full:expr, $cut:expr, $by:ident) => {
        Kind {
            name: stringify!($name),
            make: $module::$name,
            answer: $answer,
            full: &$full,
            cut: $cut,
            by: By::$by,
        }
    };
}

/// Every kind: its generator, its answer, its sizes in the bench and in the
/// gate, and by what it is made twice as large.
pub const KINDS: &[Kind] = &[
    kind!(fair::a_fair_book, 0, [], of(16384), Book),
    kind!(names::names_share_their_ends, 0, [of(6865)], of(800), Book),
    kind!(names::names_share_a_long_run, 0, [of(6200)], of(800), Book),
    kind!(names::names_begin_with_digits, 0, [of(6200)], of(800), Book),
    kind!(names::names_share_ends_at_every_length, 0, [of(7900)], of(1000), Book),
    kind!(names::names_of_a_table, 0, [of(6865)], of(800), Book),
    kind!(names::names_of_a_witness, 24, [of(6865)], of(800), Book),
    kind!(names::names_differ_in_the_middle, 0, [of(900)], of(450), Book),
    kind!(names::names_share_56_letters, 0, [of(900)], of(450), Book),
    kind!(names::names_differ_at_the_end, 0, [of(900)], of(450), Book),
    kind!(names::names_differ_in_one_letter, 0, [of(900)], of(450), Book),
    kind!(names::names_of_the_same_words, 0, [of(900)], of(450), Book),
    kind!(names::names_like_snd_0001_soc, 0, [of(3200)], of(1500), Book),
    kind!(made::names_made_for_one_link, 0, [of(4000)], of(1500), Book),
    kind!(made::names_made_for_all_marks, 0, [of(4000)], of(1500), Book),
    kind!(names::names_of_the_same_letters, 0, [of(2900)], of(1450), Book),
    kind!(names::names_as_short_as_can_be, 0, [of(8000)], of(2000), Book),
    kind!(names::names_of_every_length, 0, [of(8150)], of(2000), Book),
    kind!(names::the_last_name_is_the_first, 3, [of(6200)], of(800), Book),
    kind!(names::the_last_name_is_the_one_before, 3, [of(4600)], of(2000), Book),
    kind!(names::half_of_the_names_are_repeats, 3, [of(6200)], of(1600), Book),
    kind!(names::one_name_for_all, 3, [of(8170)], of(4000), Book),
    kind!(choices::the_last_member_is_a_repeat, 3, [of(6300)], of(1500), Book),
    kind!(choices::members_are_all_repeats, 3, [of(21000)], of(8000), Book),
    kind!(choices::one_choice_of_all, 0, [of(6300)], of(1500), Book),
    kind!(choices::the_last_two_members_are_y, 15, [of(6300)], of(1500), Book),
    kind!(choices::choices_of_one_member, 0, [of(3500)], of(1000), Book),
    kind!(choices::choices_of_no_member, 0, [of(8100)], of(4000), Book),
    kind!(choices::the_last_choice_has_two_ys, 15, [of(2250)], of(800), Book),
    kind!(records::ranges_on_one_symbol, 0, [of(8100)], of(4000), Book),
    kind!(records::the_last_range_is_broken, 14, [of(8100)], of(4000), Book),
    kind!(records::a_range_on_each_symbol, 0, [of(3900)], of(1000), Book),
    kind!(records::every_range_is_broken, 14, [of(3900)], of(1000), Book),
    kind!(records::ranges_between_symbols, 0, [of(8100)], of(4000), Book),
    kind!(records::defaults_on_one_symbol, 0, [of(10800)], of(4000), Book),
    kind!(records::a_default_on_each_symbol, 0, [of(4500)], of(1000), Book),
    kind!(records::selects_on_one_symbol, 24, [of(10800)], of(4000), Book),
    kind!(records::a_select_on_each_symbol, 0, [of(4500)], of(1000), Book),
    kind!(records::a_select_and_a_default_on_each, 0, [of(3150)], of(1000), Book),
    kind!(records::strings_of_64_bytes, 0, [of(960)], of(450), Book),
    kind!(records::the_last_symbol_is_m, 18, [of(7900)], of(2000), Book),
    kind!(nodes::equal_texts, 0, [of(10800)], of(4000), Book),
    kind!(nodes::equal_ints, 0, [of(10800)], of(4000), Book),
    kind!(nodes::equal_hexes, 0, [of(10800)], of(4000), Book),
    kind!(nodes::equal_int_and_text, 0, [of(10800)], of(4000), Book),
    kind!(nodes::equal_strings, 24, [of(10800)], of(4000), Book),
    kind!(nodes::equal_tristates, 0, [of(10800)], of(4000), Book),
    kind!(nodes::trees_in_a_table, 0, [of(10731)], of(4088), Book),
    kind!(nodes::a_chain_in_a_table, 0, [of(10800)], of(4000), Book),
    kind!(
        clearances::conditions_are_deep_trees,
        0,
        [leaves(10731, 1), leaves(10731, 8), leaves(10731, 63), leaves(10731, 9300)],
        leaves(1022, 8),
        Book
    ),
    kind!(
        clearances::conditions_are_chains_of_nine,
        0,
        [leaves(9603, 63), leaves(9603, 9300)],
        leaves(1026, 16),
        Book
    ),
    kind!(
        clearances::conditions_are_chains_of_65,
        0,
        [leaves(10400, 9300)],
        leaves(1040, 16),
        Book
    ),
    kind!(
        clearances::conditions_are_trees_of_equalities,
        0,
        [leaves(10731, 9300)],
        leaves(1022, 8),
        Book
    ),
    kind!(clearances::conditions_climb_one_chain, 0, [leaves(9603, 9300)], leaves(1026, 16), Book),
    kind!(
        clearances::conditions_descend_one_chain,
        0,
        [leaves(9603, 9300)],
        leaves(1026, 16),
        Book
    ),
    kind!(clearances::a_condition_is_one_chain, 0, [leaves(10750, 9300)], leaves(1000, 16), Book),
    kind!(clearances::a_condition_is_one_tree, 0, [leaves(10700, 9300)], leaves(1000, 16), Book),
    kind!(
        clearances::a_condition_doubles_at_each_node,
        0,
        [leaves(10750, 9300)],
        leaves(1000, 16),
        Book
    ),
    kind!(clearances::conditions_are_one_node, 0, [leaves(10700, 9300)], leaves(1000, 64), Book),
    kind!(clearances::values_are_deep_trees, 0, [leaves(10220, 9300)], leaves(1022, 8), Book),
    kind!(clearances::unread_equalities_below, 0, [leaves(10700, 9300)], leaves(1000, 64), Book),
    kind!(clearances::read_nodes_stand_far_apart, 0, [leaves(10600, 9300)], leaves(1000, 64), Book),
    kind!(clearances::unread_nodes, 0, [leaves(10700, 9300)], leaves(4000, 500), Book),
    kind!(
        clearances::unread_equalities_of_a_tristate,
        0,
        [leaves(10700, 9300)],
        leaves(1000, 64),
        Book
    ),
    kind!(clearances::unread_symbols, 0, [leaves(7700, 9300)], leaves(2000, 500), Book),
    kind!(clearances::unread_ranges_and_choices, 0, [leaves(8000, 9300)], leaves(4000, 500), Book),
    kind!(clearances::a_chain_reads_every_split, 0, [leaves(10700, 9300)], leaves(1000, 16), Book),
    kind!(
        clearances::leaves_are_at_places_in_turn,
        0,
        [leaves(10750, 9280)],
        leaves(1000, 64),
        Book
    ),
    kind!(clearances::defaults_compare_ints, 0, [leaves(7100, 9300)], leaves(1000, 16), Book),
    kind!(clearances::defaults_compare_hexes, 0, [leaves(7100, 9300)], leaves(1000, 16), Book),
    kind!(clearances::defaults_compare_texts, 0, [leaves(7100, 9300)], leaves(1000, 16), Book),
    kind!(
        clearances::defaults_compare_int_and_text,
        0,
        [leaves(7100, 9300)],
        leaves(1000, 16),
        Book
    ),
    kind!(
        clearances::defaults_compare_tristate_and_int,
        0,
        [leaves(7100, 9300)],
        leaves(1000, 16),
        Book
    ),
    kind!(
        clearances::defaults_compare_symbol_and_constant,
        0,
        [leaves(5300, 9300)],
        leaves(1000, 16),
        Book
    ),
    kind!(clearances::defaults_compare_symbols, 0, [leaves(5300, 9300)], leaves(1000, 16), Book),
    kind!(
        clearances::defaults_are_on_another_symbol,
        0,
        [leaves(10750, 9300)],
        leaves(2000, 200),
        Book
    ),
    kind!(clearances::defaults_are_on_the_place, 0, [leaves(10750, 9300)], leaves(1000, 64), Book),
    kind!(
        clearances::defaults_and_selects_are_on_the_place,
        0,
        [leaves(10740, 9300)],
        leaves(1000, 64),
        Book
    ),
    kind!(
        clearances::selects_are_on_another_symbol,
        0,
        [leaves(10750, 9300)],
        leaves(2000, 200),
        Book
    ),
    kind!(clearances::selects_are_on_the_place, 0, [leaves(10750, 9300)], leaves(1000, 64), Book),
    kind!(clearances::selects_have_deep_trees, 0, [leaves(10731, 9300)], leaves(1022, 8), Book),
    kind!(
        clearances::a_prompt_and_selects_are_trees,
        0,
        [leaves(10731, 9300)],
        leaves(1022, 8),
        Book
    ),
    kind!(clearances::a_choice_of_thousands, 0, [leaves(6200, 9300)], leaves(1000, 64), Book),
    kind!(
        clearances::a_choice_has_a_large_prompt,
        0,
        [leaves(10700, 9300)],
        leaves(1000, 16),
        Book
    ),
    kind!(
        clearances::a_choice_is_all_on_the_path,
        0,
        [leaves(10700, 9200)],
        leaves(4000, 500),
        Book
    ),
    kind!(
        clearances::a_symbol_is_m_without_modules,
        0,
        [leaves(10700, 9300)],
        leaves(4000, 500),
        Book
    ),
    kind!(
        clearances::a_condition_and_a_dependency_are_trees,
        0,
        [leaves(10700, 9300)],
        leaves(1000, 16),
        Book
    ),
    kind!(clearances::paths_are_64_deep, 0, [leaves(10700, 9200)], leaves(100, 2000), Leaves),
    kind!(clearances::tristates_are_split, 0, [leaves(10700, 11800)], leaves(100, 300), Leaves),
    kind!(clearances::a_byte_is_left_over, 22, [leaves(10700, 9300)], leaves(100, 300), Leaves),
    kind!(
        clearances::the_last_leaf_is_malformed,
        22,
        [leaves(10700, 9300)],
        leaves(100, 300),
        Leaves
    ),
    kind!(clearances::the_last_leaf_is_open, 23, [leaves(10700, 9300)], leaves(100, 300), Leaves),
];
