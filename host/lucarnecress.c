/* The two functions of include/lucarnecress.h that are plain C and not proved. host/build.sh puts them beside the proved ones. */
#include "lucarnecress.h"

const char *lucarnecress_version(void)
{
    return LUCARNECRESS_VERSION;
}

/* The words are those of the tool (tools/lucarne/src/plan/words.rs), without names and places: tests/told.py holds them against it. */
const char *lucarnecress_refusal_text(uint64_t number)
{
    switch (number) {
    case LUCARNECRESS_TABLE_SHORT:
        return "the lent table has under 4352 words";
    case LUCARNECRESS_TRUNCATED:
        return "a command is cut short, or the plan ends before its END";
    case LUCARNECRESS_UNKNOWN_COMMAND:
        return "a byte is no command";
    case LUCARNECRESS_OUT_OF_ORDER:
        return "a command stands out of order, or a second time";
    case LUCARNECRESS_TOO_MANY:
        return "a command is one too many: a plan holds 16 TABLEs, 64 RULEs, 256 USEs, 16 UNITs";
    case LUCARNECRESS_EMPTY_RULE:
        return "a RULE has neither head nor body";
    case LUCARNECRESS_ABSENT_RULE:
        return "a UNIT names a rule that is not there";
    case LUCARNECRESS_BAD_EDGE:
        return "an EDGE names a unit that is not there, or twice the same, or repeats an edge";
    case LUCARNECRESS_TRAILING_BYTES:
        return "bytes stand behind END";
    case LUCARNECRESS_RULE_IN_NO_UNIT:
        return "a rule is in no unit";
    case LUCARNECRESS_HEADED_RULE_IN_SEVERAL:
        return "a rule has a head and is in several units";
    case LUCARNECRESS_CYCLE:
        return "a unit depends on itself in a circle";
    case LUCARNECRESS_NONMONOTONIC_UNSEEN:
        return "a rule looks at a dropped relay, or at a table's input, that is driven where its unit does not see it";
    case LUCARNECRESS_MONOTONIC_UNSEEN:
        return "a rule shares relays with rules that its unit does not see";
    case LUCARNECRESS_LONG_LIST:
        return "a unit has more than 256 positions, or the plan has more than 256 positions that differ in what shows";
    case LUCARNECRESS_GIVEN_IN_HEAD:
        return "a rule drives a given atom";
    case LUCARNECRESS_TOO_MANY_QUESTIONS:
        return "more than 64 questions are asked at once";
    case LUCARNECRESS_BAD_TABLE:
        return "a TABLE has over six inputs, or a truth bit past its rows";
    case LUCARNECRESS_BAD_USE:
        return "a USE names a rule or table that is not there, has a sign above 1, or is a repeat";
    case LUCARNECRESS_BAD_READING:
        return "a reading has a digit above 9, a last byte is alone, or a number to turn into a reading is above 9999";
    case LUCARNECRESS_CONTRADICTORY_BODY:
        return "a RULE wants an atom both up and dropped";
    case LUCARNECRESS_NO_SHEET:
        return "a list or rows have fewer than 256 words, or a count is above 256";
    case LUCARNECRESS_WRONG_COUNT:
        return "the plan declares other numbers than it has";
    case LUCARNECRESS_BAD_SHEET:
        return "a sheet has more than 256 positions, or bytes that are no whole positions";
    default:
        return "no refusal has this number";
    }
}
