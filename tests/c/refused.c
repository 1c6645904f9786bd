/* refused.c: walks the exchanges of samples.h with each allocation of the library refused in turn. The call for which
 * it was refused tells so, and all memory is freed at the end. After feed, pull, draw and poll the client has failed:
 * it holds nothing. After others the same call does what it is to do when it is made again. What feed, pull and poll
 * want to note why events happen is no memory that the client needs: without it they answer as ever, and
 * turn_client_cause may report TURN_CAUSE_MEMORY.
 *
 *     cc -std=c11 -Wall -Wextra refused.c refuse.c steps.c $(pkg-config --cflags --libs turn_client) \
 *         -Wl,--wrap=malloc,--wrap=realloc,--wrap=free -o refused && ./refused
 *
 * `check` does so. A line for each exchange tells how many allocations it has. One more failure is that no cause was
 * lost. The last line is `refused: N passed, M failed`, of the allocations that were refused; the exit status is 0 where
 * M is 0, else 1. */
#include "refuse.h"
#include "steps.h"

#include <stdio.h>
#include <string.h>

/* ---- one walk */

static struct walker walker;

/* Whether a call that was refused memory leaves a client that has failed. */
static bool is_fatal(enum call call)
{
    return call == CALL_FEED || call == CALL_PULL || call == CALL_DRAW || call == CALL_POLL;
}

/* A client that has failed: what is wrong with it, or nothing. */
static const char *wrong_behind_failure(uint64_t now)
{
    if (turn_client_relayed(&walker.client, walker.relayed, HELD_MAX) != 0)
        return "a client that has failed holds an address";
    if (turn_client_draw(&walker.client, now, walker.out, TURN_MESSAGE_MAX, &walker.transmit) != TURN_NOTHING)
        return "a client that has failed sends";
    while (turn_client_event(&walker.client, &walker.event) == TURN_OK) {
    }
    if (turn_client_poll(&walker.client, now, &walker.wait) != TURN_CLOSED)
        return "a client that has failed goes on";
    return NULL;
}

/* The next step did not answer as is wanted: what is wrong with that, or nothing. */
static const char *wrong_answer(const struct step *step, int32_t answer)
{
    if (refuse_left >= 0)
        return "another answer, and nothing was refused";
    if (answer != TURN_NO_MEMORY)
        return "another answer than TURN_NO_MEMORY";
    if (is_fatal(step->call))
        return wrong_behind_failure(step->now);
    if (step_call(&walker, step) != step->want.answer)
        return "the call made again has another answer";
    return NULL;
}

/* How many causes were lost. */
static unsigned long lost;

/* Whether the memory that was refused to a call is what it notes by. */
static bool is_for_notes(enum call call)
{
    return call == CALL_FEED || call == CALL_PULL || call == CALL_POLL;
}

/* A step of an exchange whose notes may be lost: what is wrong with its answer, or nothing. */
static const char *wrong_note(const struct step *step, int32_t answer)
{
    const bool is_text = step->call == CALL_REASON || step->call == CALL_DOMAIN;
    const turn_cause *cause = &walker.cause;
    if (step->call == CALL_CAUSE && answer == TURN_OK) {
        lost += cause->kind == TURN_CAUSE_MEMORY;
        const bool is_lost = cause->kind == TURN_CAUSE_MEMORY && cause->code == 0 && cause->reason_size == 0;
        return is_lost || cause->kind == step->want.number ? NULL : "another cause";
    }
    return is_text && answer == TURN_NOTHING ? NULL : "another answer behind lost notes";
}

/* Walks until a call does not answer as is wanted: what is wrong then, or nothing. */
static const char *wrong_walk(const struct exchange *exchange, const struct step **where)
{
    bool has_lost = false;
    for (size_t i = 0; i < exchange->count; i++) {
        for (size_t k = 0; k < exchange->parts[i].count; k++) {
            const struct step *step = *where = &exchange->parts[i].steps[k];
            int32_t answer = step_call(&walker, step);
            const char *wrong = NULL;
            if (has_lost && (answer != step->want.answer || step->call == CALL_CAUSE))
                wrong = wrong_note(step, answer);
            else if (answer != step->want.answer)
                return wrong_answer(step, answer);
            else if (!has_lost && refuse_left < 0 && !is_for_notes(step->call))
                wrong = "an allocation was refused, and its call didn't tell";
            if (wrong != NULL)
                return wrong;
            has_lost = refuse_left < 0;
        }
    }
    return NULL;
}

/* Walks with one allocation refused: what is wrong, or nothing. */
static const char *wrong_with(const struct exchange *exchange, long which, const struct step **where)
{
    walker.client = (turn_client)TURN_CLIENT_INIT;
    walker.exchange = exchange;
    refuse_left = which;
    const char *wrong = wrong_walk(exchange, where);
    turn_client_close(&walker.client);
    if (wrong == NULL && refuse_held != 0)
        wrong = "memory is left";
    refuse_held = 0;
    return wrong;
}

int main(void)
{
    unsigned long passed = 0, failed = 0;
    for (size_t i = 0; i < exchange_count; i++) {
        const unsigned long before = passed + failed;
        for (long which = 0;; which++) {
            const struct step *where = exchanges[i].parts[0].steps;
            const char *wrong = wrong_with(&exchanges[i], which, &where);
            if (wrong == NULL && refuse_left >= 0)
                break; /* it has no more allocations */
            passed += wrong == NULL;
            failed += wrong != NULL;
            if (wrong != NULL)
                printf("FAILED at allocation %ld, in %s at %s: %s\n", which, exchanges[i].name,
                       call_names[where->call], wrong);
            if (refuse_left >= 0)
                break; /* without a refusal it goes wrong: exchange.c tells how */
        }
        refuse_left = -1;
        printf("%s: %lu allocations refused\n", exchanges[i].name, passed + failed - before);
    }
    if (lost == 0) {
        failed++;
        printf("FAILED: no cause was lost\n");
    }
    printf("refused: %lu passed, %lu failed\n", passed, failed);
    return failed == 0 ? 0 : 1;
}
