/* threads.c: the five calls from several threads at once, on different messages and lengths. Each answer and each byte written must be that of the
 * same call made alone. All threads are lent the same inputs; what is written is each thread's own. */
#include "check.h"
#include "gloamstrother.h"
#include "model.h"

#include <math.h>
#include <pthread.h>
#include <string.h>

enum { THREADS = 8, JOBS = 48, ROUNDS = 12, OPERATIONS = 5 };

static const char *const names[OPERATIONS] = {"build", "recover", "capture writing", "capture reading", "quantising"};

/* What the calls write. */
struct written {
    uint8_t frame[GLOAM_MOST_FRAME_SIZE], message[GLOAM_MOST_MESSAGE_SIZE], capture[GLOAM_MOST_CAPTURE_SIZE];
    uint8_t marks[GLOAM_MOST_MARKS_SIZE], values[GLOAM_MOST_VALUES_SIZE], quantised[GLOAM_MOST_VALUES_SIZE];
};

/* One message and what is heard of it, as values and as numbers, and what the calls answered and wrote alone; quantising answers for each burst. */
struct job {
    size_t length;
    unsigned mode;
    uint8_t message[GLOAM_MOST_MESSAGE_SIZE];
    uint8_t marks[GLOAM_MOST_MARKS_SIZE], values[GLOAM_MOST_VALUES_SIZE];
    float numbers[GLOAM_MOST_VALUES_SIZE];
    gloam_written built, stored;
    gloam_recovered recovered;
    gloam_read read;
    struct quantised {
        gloam_quantised bursts[GLOAM_MOST_MARKS_SIZE];
    } quantised;
    struct written alone;
};

static struct job jobs[JOBS];
static pthread_barrier_t all_ready;

struct worker {
    pthread_t thread;
    size_t number;
    struct written own;
    unsigned long calls[OPERATIONS], different[OPERATIONS];
};

static struct worker workers[THREADS];

/* Near the values and beyond; one burst in eight is silent, and one number in two hundred is a NaN. */
static void make_numbers(struct job *job, uint64_t *random)
{
    for (size_t k = 0; k < GLOAM_VALUES_SIZE(job->length); k++) {
        float number = (float)(int8_t)job->values[k] * (float)(model_random(random) % 1000) / 400;
        job->numbers[k] = k / 24 % 8 == 5 ? 0.0f : model_random(random) % 200 == 0 ? NAN : number;
    }
}

/* Noise up to where some are refused: then the refusals must be the same. */
static void make_job(struct job *job, size_t number)
{
    uint64_t random = 7919 * (number + 1);
    uint8_t bits[MODEL_MOST_BITS], frame[GLOAM_MOST_FRAME_SIZE];
    job->length = GLOAM_LEAST_LENGTH + number * 235 / (JOBS - 1);
    job->mode = (unsigned)number % 4;
    model_random_bytes(&random, job->message, job->length);
    model_payload(job->message, job->length, job->mode, bits);
    model_frame(bits, job->length, frame);
    model_heard(frame, job->length, 1, job->values);
    for (size_t k = 0; k < GLOAM_VALUES_SIZE(job->length); k++) {
        int weight = (int)(model_random(&random) % 100) - (number % 5 == 4 ? 45 : 15);
        job->values[k] = (uint8_t)((int8_t)job->values[k] * weight);
    }
    for (size_t s = 0; s < GLOAM_MARKS_SIZE(job->length); s++)
        job->marks[s] = model_random(&random) % 4 != 0;
    make_numbers(job, &random);
}

static gloam_written build(const struct job *job, struct written *to)
{
    return gloam_uplink_build(job->length, job->mode, job->message, job->length, to->frame, sizeof to->frame);
}

static gloam_recovered recover(const struct job *job, struct written *to)
{
    return gloam_uplink_recover(job->length, job->marks, GLOAM_MARKS_SIZE(job->length), job->values, GLOAM_VALUES_SIZE(job->length), to->message, sizeof to->message);
}

static gloam_written store(const struct job *job, struct written *to)
{
    return gloam_capture_write(job->length, job->marks, GLOAM_MARKS_SIZE(job->length), job->values, GLOAM_VALUES_SIZE(job->length), to->capture, sizeof to->capture);
}

static gloam_read read_back(const struct job *job, struct written *to)
{
    return gloam_capture_read(job->alone.capture, GLOAM_CAPTURE_SIZE(job->length), to->marks, sizeof to->marks, to->values, sizeof to->values);
}

static struct quantised quantise(const struct job *job, struct written *to)
{
    struct quantised answers;
    memset(&answers, 0, sizeof answers);
    for (size_t s = 0; s < GLOAM_MARKS_SIZE(job->length); s++)
        answers.bursts[s] = gloam_burst_quantise(job->numbers + 24 * s, GLOAM_BURST_VALUES, to->quantised + 24 * s, sizeof to->quantised - 24 * s);
    return answers;
}

static void run_alone(struct job *job)
{
    job->built = build(job, &job->alone);
    job->recovered = recover(job, &job->alone);
    job->stored = store(job, &job->alone);
    job->read = read_back(job, &job->alone);
    job->quantised = quantise(job, &job->alone);
}

static void count(struct worker *worker, size_t operation, bool alike)
{
    worker->calls[operation]++;
    worker->different[operation] += !alike;
}

#define ALIKE(one, other) (memcmp(&(one), &(other), sizeof(one)) == 0)

static void run_beside_others(struct worker *worker, const struct job *job)
{
    struct written *own = &worker->own;
    memset(own, 0, sizeof *own);
    gloam_written built = build(job, own), stored = store(job, own);
    gloam_recovered recovered = recover(job, own);
    gloam_read read = read_back(job, own);
    struct quantised quantised = quantise(job, own);
    count(worker, 0, ALIKE(built, job->built) && ALIKE(own->frame, job->alone.frame));
    count(worker, 1, ALIKE(recovered, job->recovered) && ALIKE(own->message, job->alone.message));
    count(worker, 2, ALIKE(stored, job->stored) && ALIKE(own->capture, job->alone.capture));
    count(worker, 3, ALIKE(read, job->read) && ALIKE(own->marks, job->alone.marks) && ALIKE(own->values, job->alone.values));
    count(worker, 4, ALIKE(quantised, job->quantised) && ALIKE(own->quantised, job->alone.quantised));
}

static void *work(void *argument)
{
    struct worker *worker = argument;
    pthread_barrier_wait(&all_ready);
    for (size_t k = 0; k < JOBS * ROUNDS; k++)
        run_beside_others(worker, &jobs[(k * (2 * worker->number + 1) + 5 * worker->number) % JOBS]);
    return NULL;
}

static bool run_all(void)
{
    bool good = pthread_barrier_init(&all_ready, NULL, THREADS) == 0;
    for (size_t k = 0; k < THREADS && good; k++) {
        workers[k].number = k;
        good = pthread_create(&workers[k].thread, NULL, work, &workers[k]) == 0;
    }
    for (size_t k = 0; k < THREADS && good; k++)
        good = pthread_join(workers[k].thread, NULL) == 0;
    return good;
}

/* The jobs are worth running: most are recovered, and some are refused. */
static void check_recovered(void)
{
    size_t done = 0;
    for (size_t k = 0; k < JOBS; k++)
        done += jobs[k].recovered.refusal == GLOAM_DONE;
    CHECK_TRUE("most jobs are recovered and some are refused", done > JOBS / 2 && done < JOBS);
}

/* And of the bursts each finding is there. */
static void check_findings(void)
{
    size_t seen[4] = {0};
    for (size_t k = 0; k < JOBS; k++)
        for (size_t s = 0; s < GLOAM_MARKS_SIZE(jobs[k].length); s++)
            seen[jobs[k].quantised.bursts[s].finding % 4]++;
    CHECK_TRUE("bursts are heard, silent and faulty", seen[GLOAM_HEARD] > 0 && seen[GLOAM_SILENT] > 0 && seen[GLOAM_FAULTY] > 0);
}

static void check_operation(size_t operation)
{
    unsigned long calls = 0, different = 0;
    check_group("%s from %d threads at once", names[operation], THREADS);
    for (size_t k = 0; k < THREADS; k++) {
        calls += workers[k].calls[operation];
        different += workers[k].different[operation];
    }
    check_case("%s", names[operation]);
    CHECK_NUMBER("calls", THREADS * JOBS * ROUNDS, calls);
    CHECK_NUMBER("calls that answer otherwise than alone", 0, different);
    if (operation == 1)
        check_recovered();
    if (operation == 4)
        check_findings();
    check_note(", %lu calls", calls);
}

int main(void)
{
    for (size_t k = 0; k < JOBS; k++) {
        make_job(&jobs[k], k);
        run_alone(&jobs[k]);
    }
    bool ran = run_all();
    for (size_t operation = 0; operation < OPERATIONS; operation++)
        check_operation(operation);
    CHECK_TRUE("all threads ran", ran);
    return check_end();
}
