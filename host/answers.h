/* What the answers say, in words: docs/RULES.md, F and A, shortened, with the schemas' Italian terms. 0 has no words
   of its own: a file is taken, a record accepted, a register sound or converted, a case found, a cancellation file
   written, an evaluation told. */
#ifndef ANSWERS_H
#define ANSWERS_H
#include "siad.h"

static const struct answer_words {
    unsigned number;
    const char *words;
} answer_words[] = {
    /* of a file */
    {SIAD_BAD_PERIOD, "the year is not one of 2009 to 2099, or the quarter (trimestre) not one of 1 to 4"},
    {SIAD_BAD_TRACK, "the track (tracciato) is neither 1 nor 2"},
    {SIAD_UNSOUND, "the register is not sound"},
    {SIAD_TOO_LONG, "the submission is longer than 1,048,576 bytes"},
    {SIAD_NOT_MARKUP, "the submission is not in the markup (XML) that is taken"},
    {SIAD_NOT_SHAPE, "not of the schema's shape"},
    {SIAD_MANY_EVENTS, "a record with more than 128 events (Eventi)"},
    {SIAD_SHORT_LIST, "the answer list has fewer bytes than there are records"},
    /* of a record */
    {SIAD_OUTSIDE_QUARTER, "a date outside the declared quarter: of the taking in (presa in carico) in Track 1, of an "
                           "event in Track 2; of a suspension (Sospensione) it is dataFine, or without one dataInizio"},
    {SIAD_BIRTH_YEAR, "the birth year (AnnoNascita) is before 1880, or after the year of taking in (presa in carico)"},
    {SIAD_RESIDENCE, "StatoEstero stands and not all of Regione 999, ASL 999, Comune 999999 do; or it is missing and "
                     "all three stand; or it is IT"},
    {SIAD_NO_PATHOLOGY, "a main diagnosis (Patologia, Prevalente) is 000"},
    {SIAD_STANDS, "an insertion (I, inserimento) of a case, or of an event, that stands already"},
    {SIAD_STANDS_NOT, "a variation (V, variazione) or cancellation (C, cancellazione) of a case, or of an event, that "
                      "does not stand"},
    {SIAD_NO_ROOM, "an insertion (I, inserimento) for which the register has too few rows left"},
    {SIAD_NO_EVENT, "no event in the record"},
    {SIAD_CONFIRMATION, "confermaPrecedente is 1 with an assessment (Valutazione), or 2 without one"},
    {SIAD_EVENT_TWICE, "one event twice in the record: the same kind on the same date, of visits (Erogazione) also "
                       "the same operator"},
    {SIAD_ENDS_BEFORE, "a suspension (Sospensione) ends before it begins"},
    {SIAD_NO_CASE, "the case (presa in carico) does not stand"},
    {SIAD_BEFORE_TAKING_IN, "an event's date is before the taking in (presa in carico)"},
    {SIAD_SUSPENSIONS_MEET, "two suspensions (Sospensione) share a day; one without dataFine runs on"},
    {SIAD_TWO_CONCLUSIONS, "two conclusions (Conclusione)"},
    {SIAD_AFTER_CONCLUSION, "an event's date or end date is after the conclusion (Conclusione)"},
    /* of finding, of a cancellation file and of an evaluation */
    {SIAD_NOT_FOUND, "a text is not allowed, or the case does not stand"},
    /* of a cancellation file */
    {SIAD_REPLACES, "a reassessment (Rivalutazione) of the quarter replaced the assessment (confermaPrecedente 2): of "
                    "the Valutazione that its cancellation must have the register keeps a part only"},
    {SIAD_NOTHING_IN_QUARTER, "the case has no event in this quarter; a suspension (Sospensione) counts in that of "
                              "dataFine, or without one of dataInizio"},
    {SIAD_SHORT_OUTPUT, "the cancellation file is longer than the output"},
};

/* What the two last calls mean by a number that others answer too. */
#define NO_EVALUATION \
    "a text is not allowed, or the case does not stand, or the day is before its taking in (presa in carico)"
#define NOT_OLD "it is not a sound register in rows of 91 bytes"
#define WIDE_ALREADY "it is a sound register in rows of 96 bytes already: there is nothing to convert"

/* The words of an answer; `zero` for 0, and NULL for a number that no call answers. */
static inline const char *words_of(uint64_t answer, const char *zero) {
    if (answer == 0) return zero;
    for (size_t i = 0; i < sizeof answer_words / sizeof *answer_words; i++)
        if (answer_words[i].number == answer) return answer_words[i].words;
    return NULL;
}

#endif
