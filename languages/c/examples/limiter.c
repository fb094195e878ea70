/*
 * A rate limiter that threads share.
 *
 *     limiter THREADS [LIMIT] < REQUESTS
 *
 * A line of REQUESTS is a second, a client and a cost: three numbers (numbers.awk writes some). A
 * client may spend LIMIT (100 by default) in each second; a request that would go past it is
 * refused. Each thread takes the next request that is left. At the end it prints, for each client,
 * what was spent in all and how many of its requests were refused, and it fails if a client spent
 * more than the limit in any second.
 *
 * One map has all of it, each kind of number at keys of its own: what a client has spent in its
 * newest second, which compare_exchange keeps within the limit; the most that it spent in one; and two
 * tallies, to which add adds.
 */
#include "samvolip.h"

#include <inttypes.h>
#include <pthread.h>
#include <stdatomic.h>
#include <stdio.h>
#include <stdlib.h>

enum { MOST_THREADS = SAMVOLIP_MAX_SEATS, MOST_CLIENTS = 10000 };

/* What is at the four keys of a client. */
enum kind { NEWEST, SPENT, REFUSED, WORST, KINDS };

/* A second and what was spent in it, as one number of the map. */
#define SPENT_BITS 28
#define MOST_SPENT ((UINT64_C(1) << SPENT_BITS) - 1)
#define MOST_SECOND (SAMVOLIP_VALUE_MAX >> SPENT_BITS)

struct request {
    uint64_t second, client, cost;
};

struct worker {
    samvolip_seat seat;
    atomic_size_t *next; /* the request that is to be taken next, by any thread */
    uint64_t limit;
    const struct request *requests;
    size_t count;
};

static uint64_t key_of(uint64_t client, enum kind kind)
{
    return client * KINDS + kind;
}

static int made(const char *what, int code)
{
    if (code < 0) {
        fprintf(stderr, "limiter: %s: %s\n", what, samvolip_strerror(code));
        exit(1);
    }
    return code;
}

/* Keeps the most that a client has ever spent in a second. */
static void note_worst(samvolip_seat *seat, uint64_t client, uint64_t spent)
{
    const uint64_t key = key_of(client, WORST);
    uint64_t most;
    int done = made("put", samvolip_put_if_absent(seat, key, spent, &most)) == SAMVOLIP_ABSENT;
    while (!done && most < spent) {
        done = made("replace", samvolip_replace_if(seat, key, most, spent));
        if (!done)
            made("get", samvolip_get(seat, key, &most));
    }
}

/*
 * Whether the client may spend this much, which is spent then. A request of an earlier second than
 * the client's newest counts in that one.
 */
static int admit(samvolip_seat *seat, const struct request *request, uint64_t limit)
{
    const uint64_t key = key_of(request->client, NEWEST);
    uint64_t before = 0, worst;
    int had = made("get", samvolip_get(seat, key, &before));
    for (;;) {
        uint64_t second = had ? before >> SPENT_BITS : 0, spent = had ? before & MOST_SPENT : 0;
        if (request->second > second) {
            second = request->second;
            spent = 0;
        }
        if (spent + request->cost > limit)
            return 0;
        uint64_t after = second << SPENT_BITS | (spent + request->cost);
        samvolip_reply reply;
        int code = samvolip_compare_exchange(seat, key, had ? &before : NULL, &after, 1, &reply);
        if (code == SAMVOLIP_E_CONTENDED) {
            had = made("get", samvolip_get(seat, key, &before));
            continue;
        }
        made("compare_exchange", code);
        if (reply.matched) {
            worst = spent + request->cost;
            break;
        }
        had = reply.had == 1;
        before = reply.before;
    }
    note_worst(seat, request->client, worst);
    return 1;
}

static void *work(void *given)
{
    struct worker *worker = given;
    size_t taken;
    while ((taken = atomic_fetch_add(worker->next, 1)) < worker->count) {
        const struct request *request = &worker->requests[taken];
        if (admit(&worker->seat, request, worker->limit))
            made("add", samvolip_add(&worker->seat, key_of(request->client, SPENT),
                                     request->cost, NULL));
        else
            made("add", samvolip_add(&worker->seat, key_of(request->client, REFUSED), 1, NULL));
    }
    return NULL;
}

/* All requests of standard input; a line that isn't one ends the program. */
static struct request *read_requests(size_t *count)
{
    size_t room = 1024;
    struct request *requests = malloc(room * sizeof *requests), request;
    int found;
    *count = 0;
    while (requests
           && (found = scanf("%" SCNu64 " %" SCNu64 " %" SCNu64, &request.second, &request.client,
                             &request.cost)) != EOF) {
        if (found != 3 || request.second > MOST_SECOND || request.client >= MOST_CLIENTS
            || request.cost > MOST_SPENT) {
            fprintf(stderr, "limiter: request %zu isn't one\n", *count + 1);
            exit(2);
        }
        if (*count == room) {
            struct request *more = realloc(requests, (room *= 2) * sizeof *requests);
            if (!more)
                free(requests);
            requests = more;
        }
        if (requests)
            requests[(*count)++] = request;
    }
    made("read", requests ? SAMVOLIP_OK : SAMVOLIP_E_OUT_OF_MEMORY);
    return requests;
}

/* Prints what each client spent, and answers whether none spent more than the limit in a second. */
static int told(samvolip_ended *ended, uint64_t limit)
{
    int is_well = 1;
    for (uint64_t client = 0; client < MOST_CLIENTS; client++) {
        uint64_t spent = 0, refused = 0, worst = 0;
        int had = samvolip_ended_get(ended, key_of(client, SPENT), &spent);
        had += samvolip_ended_get(ended, key_of(client, REFUSED), &refused);
        samvolip_ended_get(ended, key_of(client, WORST), &worst);
        is_well &= worst <= limit;
        if (had)
            printf("client %" PRIu64 ": %" PRIu64 " spent, %" PRIu64 " refused\n", client, spent,
                   refused);
    }
    return is_well;
}

int main(int words_count, char **words)
{
    unsigned threads_count = words_count > 1 ? (unsigned)strtoul(words[1], NULL, 10) : 1;
    uint64_t limit = words_count > 2 ? strtoull(words[2], NULL, 10) : 100;
    if (threads_count < 1 || threads_count > MOST_THREADS || limit > MOST_SPENT / 2) {
        fprintf(stderr, "usage: limiter THREADS [LIMIT] < REQUESTS, with 1 to %d threads\n",
                MOST_THREADS);
        return 2;
    }
    size_t count;
    struct request *requests = read_requests(&count);
    samvolip_shape shape = samvolip_shape_for_keys(MOST_CLIENTS * KINDS, threads_count);
    struct worker workers[MOST_THREADS] = {{SAMVOLIP_SEAT_INIT, NULL, 0, NULL, 0}};
    atomic_size_t next = 0;
    pthread_t threads[MOST_THREADS];
    made("open", samvolip_open(&shape, &workers[0].seat));
    for (unsigned i = 0; i < threads_count; i++) {
        if (i > 0)
            made("split", samvolip_split(&workers[0].seat, &workers[i].seat));
        workers[i].next = &next;
        workers[i].limit = limit;
        workers[i].requests = requests;
        workers[i].count = count;
    }
    for (unsigned i = 0; i < threads_count; i++)
        if (pthread_create(&threads[i], NULL, work, &workers[i])) {
            perror("limiter: thread");
            return 1;
        }
    for (unsigned i = 0; i < threads_count; i++)
        pthread_join(threads[i], NULL);
    for (unsigned i = 1; i < threads_count; i++)
        made("join", samvolip_join(&workers[0].seat, &workers[i].seat));
    samvolip_ended ended = SAMVOLIP_ENDED_INIT;
    made("close", samvolip_close(&workers[0].seat, &ended));
    int is_well = told(&ended, limit);
    samvolip_ended_free(&ended);
    free(requests);
    return is_well ? 0 : 1;
}
