"""What the house knows to pass a bound (bounds.py), with its figure and the reason, and the must-fail edits that have to be there.

An entry lets its finding through as long as it goes no further than the figure. An entry that nothing needs any more fails, and goes.
"""

from __future__ import annotations

from dataclasses import dataclass


@dataclass(frozen=True)
class Known:
    """A finding that is let through: the bound, the file below the repository (`crates` where a name is meant wherever it stands), the name, the
    greatest figure, and why."""
    bound: str
    file: str
    name: str
    figure: int
    why: str
    # Whether it is being mended, so that the finding may be gone already.
    may_go: bool = False

    def key(self) -> tuple[str, str, str]:
        return self.bound, self.file, self.name


LENT = "the allocator, what is written to and both counters are lent each as itself, so that clauses name each"
WALK = "a walk's place, mark, trace, bound values and counter are lent each as itself, so that clauses name each"
FOREST = "the forest, what is marked in it and the lists that are filled are lent each as itself, so that clauses name each"
TESTED = "a test's values, each given as itself"
TABLE = "a test's table: its rows are its lines"
ARMS = "one arm for each pair of turns"
OWN_WORD = "a plain word that each of these crates has for a thing of its own"
FEW_USES = "a fact that one clause names, or a step of one proof; the figure may fall and not rise"

KNOWN: tuple[Known, ...] = (
    Known("twice in src", "crates", "Desk", 2, OWN_WORD),
    Known("twice in src", "crates", "Frame", 5, OWN_WORD),
    Known("twice in src", "crates", "Spot", 7, OWN_WORD),
    Known("twice in src", "crates", "Steps", 2, OWN_WORD),
    Known("twice in src", "crates", "Store", 3, OWN_WORD),
    Known("once", "crates/lsys_syntax/specs", "lsys_syntax", 31, FEW_USES),
    Known("once", "crates/lsys_spec/specs", "lsys_spec", 65, FEW_USES),
    Known("once", "crates/lsys_laws/specs", "lsys_laws", 87, FEW_USES),
    Known("once", "crates/lsys_io/specs", "lsys_io", 26, FEW_USES),
    Known("once", "crates/lsys_text/specs", "lsys_text", 7, FEW_USES),
    Known("once", "crates/lsys_expr/specs", "lsys_expr", 17, FEW_USES),
    Known("once", "crates/lsys_module/specs", "lsys_module", 13, FEW_USES),
    Known("once", "crates/lsys_reading/specs", "lsys_reading", 20, FEW_USES),
    Known("once", "crates/lsys_bodies/specs", "lsys_bodies", 21, FEW_USES),
    Known("once", "crates/lsys_rules/specs", "lsys_rules", 33, FEW_USES),
    Known("once", "crates/lsys_rewrite/specs", "lsys_rewrite", 4, FEW_USES),
    Known("once", "crates/lsys_level/specs", "lsys_level", 11, FEW_USES),
    Known("once", "crates/lsys_region/specs", "lsys_region", 4, FEW_USES),
    Known("once", "crates/lsys_walks/specs", "lsys_walks", 19, FEW_USES),
    Known("once", "crates/lsys_match/specs", "lsys_match", 39, FEW_USES),
    Known("once", "crates/lsys_forest/specs", "lsys_forest", 51, FEW_USES),
    Known("once", "crates/lsys_reads/specs", "lsys_reads", 20, FEW_USES),
    Known("once", "crates/lsys_children/specs", "lsys_children", 49, FEW_USES),
    Known("once", "crates/lsys_front/specs", "lsys_front", 24, FEW_USES),
    Known("once", "crates/lsys_pass/specs", "lsys_pass", 35, FEW_USES),
    Known("once", "crates/lsys_lattice/specs", "lsys_lattice", 50, FEW_USES),
    Known("once", "crates/lsys_turtle/specs", "lsys_turtle", 4, FEW_USES),
    Known("once", "crates/lsys_hom/specs", "lsys_hom", 17, FEW_USES),
    Known("once", "crates/lsys_out/specs", "lsys_out", 11, FEW_USES),
    Known("once", "crates/lsys_motion/specs", "lsys_motion", 9, FEW_USES),
    Known("once", "crates/lsys_growth/specs", "lsys_growth", 18, FEW_USES),
    Known("once", "crates/lsys_history/specs", "lsys_history", 13, FEW_USES),
    Known("once", "crates/lsys_session/specs", "lsys_session", 12, FEW_USES),
    Known("once", "crates/lsys_cli/specs", "lsys_cli", 33, FEW_USES),
    Known("once", "crates/lsys_flat/specs", "lsys_flat", 71, FEW_USES),
    Known("once", "crates/lsys_tests_levels/specs", "lsys_tests_levels", 1, FEW_USES),
    Known("once", "crates/lsys_tests_forests/specs", "lsys_tests_forests", 2, FEW_USES),
    Known("parameters", "crates/lsys_children/src/first.rt", "make_first", 7, FOREST),
    Known("parameters", "crates/lsys_children/src/renew.rt", "renew_all", 7, FOREST),
    Known("parameters", "crates/lsys_cli/src/desk.rt", "command", 7, LENT),
    Known("parameters", "crates/lsys_cli/src/desk.rt", "session_line", 7, LENT),
    Known("parameters", "crates/lsys_cli/src/desk.rt", "own_line", 7, LENT),
    Known("parameters", "crates/lsys_cli/src/desk.rt", "go", 7, LENT),
    Known("parameters", "crates/lsys_cli/src/desk.rt", "lead", 8, LENT),
    Known("parameters", "crates/lsys_cli/src/desk.rt", "lead_from", 9, LENT),
    Known("parameters", "crates/lsys_cli/src/picture_reply.rt", "answer_place", 7, LENT),
    Known("parameters", "crates/lsys_cli/src/run.rt", "run", 8, LENT),
    Known("parameters", "crates/lsys_cli/src/run.rt", "answer_line", 8, LENT),
    Known("parameters", "crates/lsys_flat/src/asking.rt", "ask_at", 8, LENT),
    Known("parameters", "crates/lsys_flat/src/draft.rt", "ask_level", 7, LENT),
    Known("parameters", "crates/lsys_flat/src/draft.rt", "ask", 7, LENT),
    Known("parameters", "crates/lsys_flat/src/plan.rt", "planned", 7, LENT),
    Known("parameters", "crates/lsys_flat/src/round.rt", "ask_next", 8, LENT),
    Known("parameters", "crates/lsys_forest/src/stock.rt", "insert", 7, FOREST),
    Known("parameters", "crates/lsys_forest/src/walk.rt", "mate_of", 7, FOREST),
    Known("parameters", "crates/lsys_front/src/asks.rt", "asked", 8, FOREST),
    Known("parameters", "crates/lsys_front/src/changes.rt", "find_nodes", 7, FOREST),
    Known("parameters", "crates/lsys_front/src/changes.rt", "find_marked", 7, FOREST),
    Known("parameters", "crates/lsys_match/src/question.rt", "ask", 9, LENT),
    Known("parameters", "crates/lsys_match/src/question.rt", "answer", 9, LENT),
    Known("parameters", "crates/lsys_match/src/site.rt", "pick_weighted", 7, LENT),
    Known("parameters", "crates/lsys_match/src/site.rt", "choose", 7, LENT),
    Known("parameters", "crates/lsys_match/src/told.rt", "tell_at", 7, LENT),
    Known("parameters", "crates/lsys_pass/src/level.rt", "make_below", 7, LENT),
    Known("parameters", "crates/lsys_pass/src/outcome.rt", "keep_outcome", 7, LENT),
    Known("parameters", "crates/lsys_session/src/session.rt", "command", 7, LENT),
    Known("parameters", "crates/lsys_session/src/session.rt", "restore", 7, LENT),
    Known("parameters", "crates/lsys_session/src/session.rt", "answer", 7, LENT),
    Known("parameters", "crates/lsys_session/src/session.rt", "edit", 7, LENT),
    Known("parameters", "crates/lsys_tests_derivations/src/scripts.rt", "is_answered", 7, TESTED),
    Known("parameters", "crates/lsys_tests_derivations/src/scripts.rt", "are_answered", 7, TESTED),
    Known("parameters", "crates/lsys_tests_derivations/src/scripts.rt", "plays", 7, TESTED),
    Known("parameters", "crates/lsys_tests_derivations/src/scripts.rt", "plays_on", 7, TESTED),
    Known("parameters", "crates/lsys_tests_derivations/src/writing.rt", "put_answer", 8, TESTED),
    Known("parameters", "crates/lsys_tests_derivations/src/writing.rt", "answer_line", 7, TESTED),
    Known("parameters", "crates/lsys_tests_derivations/src/writing.rt", "answer_next", 7, TESTED),
    Known("parameters", "crates/lsys_tests_derivations/src/writing.rt", "answer_lines", 8, TESTED),
    Known("parameters", "crates/lsys_tests_levels/src/walks.rt", "left", 7, TESTED),
    Known("parameters", "crates/lsys_tests_levels/src/walks.rt", "right", 7, TESTED),
    Known("parameters", "crates/lsys_walks/src/contexts.rt", "context_reads", 9, WALK),
    Known("parameters", "crates/lsys_walks/src/left.rt", "left_reads", 8, WALK),
    Known("parameters", "crates/lsys_walks/src/meeting.rt", "meet_module", 8, WALK),
    Known("parameters", "crates/lsys_walks/src/right.rt", "right_reads", 9, WALK),
    Known("parameters", "crates/lsys_walks/src/right.rt", "inner_reads", 9, WALK),
    Known("lines of a function", "crates/lsys_lattice/src/cubic.rt", "turn", 40, ARMS),
    Known("lines of a function", "crates/lsys_tests_scripts/src/drawing.rt", "pictures", 49, TABLE),
    Known("lines of a function", "crates/lsys_tests_scripts/src/drawing.rt", "bounds_and_places", 54, TABLE),
    Known("lines of a function", "crates/lsys_tests_scripts/src/editing.rt", "edits", 69, TABLE),
    Known("lines of a function", "crates/lsys_tests_scripts/src/refusing.rt", "refusals", 89, TABLE),
    Known("lines of a function", "crates/lsys_tests_scripts/src/stepping.rt", "steps", 64, TABLE),
)

# The wrong bodies that a must-fail edit of the crate has to be, whatever else is one: its name, and what it does.
NAMED_EDITS: dict[str, dict[str, str]] = {
    "lsys_match": {
        "draw_by_place": "a draw is keyed by the module's place in its level",
    },
    "lsys_walks": {
        "left_context_enters_a_branch": "the left context enters a branch that it should skip",
        "branch_pattern_must_reach_the_end": "a branch pattern has to match its branch to the end",
        "only_the_first_leading_branch_is_tested": "a branch pattern tests only the first leading branch",
        "depths_not_compared": "traces are compared without their depths",
    },
    "lsys_front": {
        "readers_of_changed_alone": "the readers of changed symbols alone are asked again, and not those around what came",
    },
    "lsys_pass": {
        "a_changed_level_is_asked_whole": "every module of a changed level is asked again",
        "every_module_is_asked_anew": "every module of each level is walked again",
        "levels_kept_after_a_refusal": "levels of the new system are kept after a refusal",
        "the_limit_refused_at_its_own_sum": "the limit is refused where the sum equals it",
        "the_limit_told_a_level_late": "the limit is told one level late",
        "the_rightmost_fault": "another fault than the leftmost is answered",
    },
    "lsys_flat": {
        "every_module_asked_anew": "every module of a changed level is asked again, in lists",
        "levels_kept_after_a_refusal": "levels of the new system are kept after a refusal, in lists",
        "the_limit_refused_at_its_own_sum": "the limit is refused where the sum equals it, in lists",
        "the_limit_told_a_level_late": "the limit is told one level late, in lists",
    },
    "lsys_rewrite": {
        "cut_goes_on_after_its_branch": "the cut inside a branch goes on to the end of the string",
    },
    "lsys_forest": {
        "removed_nodes_are_given_back_before_the_commit": "removed nodes are given back before the commit",
        "removed_nodes_are_never_given_back": "removed nodes are never given back",
    },
    "lsys_cli": {
        "always_read_fault": "every run ends as if its source had failed",
        "always_write_fault": "every run ends as if its sink had failed",
        "always_usage": "every run ends as if its words were wrong",
        "always_too_long": "every run ends as if its script were too long",
        "read_fault_taken_for_the_end": "a failed read is taken for the end of the script",
        "undo_keeps_the_present_system": "an undo keeps the present system",
    },
    "lsys_rules": {
        "show_drops_the_table": "`show` drops the table of a rule",
    },
    "lsys_reading": {
        "place_always_the_end": "the place of a syntax refusal is always the end of the line",
    },
    "lsys_history": {
        "what_was_undone_is_not_forgotten": "what was undone is not forgotten after a new edit",
    },
    "lsys_motion": {
        "end_of_a_branch_carried_past_it": "the end of a branch is carried past its bracket",
        "moves_without_a_segment_in_bounds": "moves without a segment count for `bounds`",
    },
    "lsys_growth": {
        "nothing-times-past": "a letter that no word uses makes a growth too large",
        "first-table-at-each-step": "the first table is used at each step",
    },
}
