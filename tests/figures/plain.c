/* A machine written plainly in C, to compare times with: tests/figures/machine builds and runs it.
 *
 *   plain WIRING SCRIPT            makes the script's calls one after the other
 *   plain --live WIRING SCRIPT     each task as a thread under one lock; `wait` waits for a message
 *   plain --deaths COUNT           so many ports, 4,096 in one space and the others on their queues, go with their task;
 *                                  tells the microseconds of their end
 *
 * It knows the calls that the figures make, and of messages the two without arguments and the reply with a code of 0 of
 * a subsystem of two routines from id 500 on. What it prints is what `machcheck replay` prints. It checks names and
 * rights as far as these scripts need, and proves nothing. */
#include <pthread.h>
#include <stdint.h>
#include <stdio.h>
#include <stdlib.h>
#include <string.h>
#include <time.h>

enum { NAMES = 1 << 16, LIMIT = 4096, TASKS = 1 << 16, QUEUE = 5 };
enum { SEND = 1, RECEIVE = 2, ONCE = 4, DEAD = 16 };

typedef struct Message Message;
typedef struct Port {
    uint64_t number;
    int receiver; /* a task, or -1 where no task holds the receive right */
    uint32_t name, sequence;
    Message *first, *last;
    int queued;
    int dies; /* a task whose kernel port it is, or -1 */
    struct Holder *holders;
} Port;
typedef struct Holder { /* an entry that names the port */
    int task;
    uint32_t name;
    struct Holder *next, **back;
} Holder;
struct Message {
    Port *reply, *carried;
    uint32_t bits, id, size;
    unsigned char body[8];
    Message *next;
};
typedef struct {
    Port *port;
    int kind;
    uint32_t references;
    Holder *holder;
} Entry;
typedef struct {
    Entry *entries;
    uint64_t used[NAMES / 64];
    int count;
    Port *kernel;
} Task;
typedef struct { /* send rights by port and task */
    uint64_t key;
    uint32_t name;
} Slot;

static Task *tasks[TASKS];
static char task_names[64][64];
static int task_count;
static uint64_t ports, next_port;
static Slot *slots;
static uint64_t slot_mask = (1 << 12) - 1, slot_count;

static void *room(size_t size) {
    void *made = calloc(1, size);
    if (!made) abort();
    return made;
}
static uint64_t hash(uint64_t key) {
    key *= 0x9e3779b97f4a7c15u;
    return key ^ key >> 29;
}
static uint64_t key_of(const Port *port, int task) { return port->number << 16 | (uint64_t)task | 1ull << 63; }
static Slot *slot_at(uint64_t key) {
    uint64_t place = hash(key) & slot_mask;
    while (slots[place].key && slots[place].key != key) place = (place + 1) & slot_mask;
    return &slots[place];
}
static void put_slot(uint64_t key, uint32_t name) {
    if (!slots || slot_count * 2 > slot_mask) {
        Slot *old = slots;
        uint64_t many = slots ? slot_mask + 1 : 0;
        slot_mask = slots ? slot_mask * 2 + 1 : slot_mask;
        slots = room(sizeof(Slot) * (slot_mask + 1));
        for (uint64_t i = 0; i < many; i++)
            if (old[i].key) *slot_at(old[i].key) = old[i];
        free(old);
    }
    Slot *slot = slot_at(key);
    if (!slot->key) slot_count++;
    slot->key = key;
    slot->name = name;
}
static void drop_slot(uint64_t key) {
    if (!slots) return;
    uint64_t hole = (uint64_t)(slot_at(key) - slots);
    if (!slots[hole].key) return;
    slot_count--;
    for (uint64_t i = (hole + 1) & slot_mask; slots[i].key; i = (i + 1) & slot_mask) {
        uint64_t home = hash(slots[i].key) & slot_mask;
        if (((i - home) & slot_mask) >= ((i - hole) & slot_mask)) {
            slots[hole] = slots[i];
            hole = i;
        }
    }
    slots[hole].key = 0;
}

static Entry *at(int task, uint32_t name) {
    return name && name < NAMES && tasks[task]->entries[name].kind ? &tasks[task]->entries[name] : NULL;
}
static uint32_t least(const Task *task) {
    for (uint32_t word = 0; word < NAMES / 64; word++)
        if (task->used[word] != UINT64_MAX) return word * 64 + (uint32_t)__builtin_ctzll(~task->used[word]);
    abort();
}
static Entry *set(int number, uint32_t name, Port *port, int kind) {
    Task *task = tasks[number];
    Entry *entry = &task->entries[name];
    task->used[name / 64] |= 1ull << name % 64;
    task->count++;
    *entry = (Entry){port, kind, kind & RECEIVE ? 0 : 1, NULL};
    if (port) {
        Holder *holder = entry->holder = room(sizeof *holder);
        *holder = (Holder){number, name, port->holders, &port->holders};
        if (port->holders) port->holders->back = &holder->next;
        port->holders = holder;
        if (!(kind & ONCE)) put_slot(key_of(port, number), name);
    }
    return entry;
}
static void unhold(Entry *entry, int number) {
    if (!entry->port) return;
    if (!(entry->kind & ONCE)) drop_slot(key_of(entry->port, number));
    *entry->holder->back = entry->holder->next;
    if (entry->holder->next) entry->holder->next->back = entry->holder->back;
    free(entry->holder);
    entry->port = NULL;
}
static void clear(int number, uint32_t name) {
    Task *task = tasks[number];
    unhold(&task->entries[name], number);
    task->entries[name].kind = 0;
    task->used[name / 64] &= ~(1ull << name % 64);
    task->count--;
}
static Port *born(int receiver, uint32_t name) {
    Port *port = room(sizeof *port);
    port->number = next_port++;
    port->receiver = receiver;
    port->name = name;
    port->dies = -1;
    ports++;
    return port;
}
/* The port goes, and all that waits on its queue: ports too, whose receive rights a message carries. A send-once right
 * that goes unused tells nobody here. */
static void die(Port *port) {
    while (port->first) {
        Message *message = port->first;
        port->first = message->next;
        if (message->carried) die(message->carried);
        free(message);
    }
    while (port->holders) {
        int number = port->holders->task;
        Entry *entry = at(number, port->holders->name);
        unhold(entry, number);
        entry->kind = DEAD;
    }
    ports--;
    free(port);
}
static int made_task(void) {
    Task *task = tasks[task_count] = room(sizeof *task);
    task->entries = room(sizeof(Entry) * NAMES);
    task->used[0] = 1;
    return task_count++;
}
/* The name under which the task has a send right to the port from now on, or 0 where its space is full. */
static uint32_t give_send(int task, Port *port) {
    Slot *slot = slots ? slot_at(key_of(port, task)) : NULL;
    if (slot && slot->key) {
        Entry *entry = at(task, slot->name);
        entry->kind |= SEND;
        entry->references++;
        return slot->name;
    }
    if (tasks[task]->count == LIMIT) return 0;
    uint32_t name = least(tasks[task]);
    set(task, name, port, SEND);
    return name;
}
static void take_send(int task, uint32_t name, Entry *entry) {
    if (--entry->references) return;
    entry->kind &= ~SEND;
    if (!entry->kind) clear(task, name);
}

/* What calls answer, in the order of the calls. */
static char *told;
static size_t told_size, told_room;
static unsigned long events;
static void tell(int task, const char *words) {
    if (told_room - told_size < 256 + strlen(words)) {
        told_room = told_room * 2 + (1 << 16);
        if (!(told = realloc(told, told_room))) abort();
    }
    told_size += (size_t)sprintf(told + told_size, "%lu %s %s\n", events++, task_names[task], words);
}
static void tell_number(int task, const char *word, uint32_t number) {
    char text[64];
    sprintf(text, "%s %u", word, number);
    tell(task, text);
}

static uint32_t word_at(const unsigned char *bytes, int place) {
    uint32_t word;
    memcpy(&word, bytes + 4 * place, 4);
    return word;
}
static void enqueue(Port *port, Message *message) {
    if (port->first) port->last->next = message;
    else port->first = message;
    port->last = message;
    port->queued++;
}
static void send(int task, const unsigned char *bytes, size_t size) {
    uint32_t bits = word_at(bytes, 0), remote = word_at(bytes, 2), local = word_at(bytes, 3), id = word_at(bytes, 5);
    Entry *to = at(task, remote), *from = NULL;
    int disposition = bits & 255, replies = bits >> 8 & 255;
    if (!to || size != word_at(bytes, 1)) {
        tell(task, "refused MACH_SEND_INVALID_DEST");
        return;
    }
    if (to->kind == DEAD || !to->port) {
        tell(task, "refused MACH_SEND_INVALID_DEST");
        return;
    }
    if (replies == 21 && !((from = at(task, local)) && from->kind & RECEIVE)) {
        tell(task, "refused MACH_SEND_INVALID_REPLY");
        return;
    }
    if (!(id == 500 || id == 501 ? size == 24 : id == 600 && size == 32)) {
        tell(task, "denied WrongShape 0");
        return;
    }
    Port *port = to->port;
    if (disposition == 19 && port->queued >= QUEUE) {
        tell(task, "refused MACH_SEND_TIMED_OUT");
        return;
    }
    Message *message = room(sizeof *message);
    *message = (Message){from ? from->port : NULL, NULL, (from ? 18u : 0) | (disposition == 18 ? 18u : 17u) << 8, id, (uint32_t)size, {0}, NULL};
    memcpy(message->body, bytes + 24, size - 24);
    if (disposition == 18) clear(task, remote);
    enqueue(port, message);
    tell(task, "done");
}
/* Whether there was a message, or the name is none. */
static int receive(int task, uint32_t name, uint32_t limit) {
    Entry *entry = at(task, name);
    if (!entry || !(entry->kind & RECEIVE)) {
        tell(task, "refused MACH_RCV_INVALID_NAME");
        return 1;
    }
    Port *port = entry->port;
    Message *message = port->first;
    if (!message) return 0;
    if (message->size > limit) {
        tell(task, "refused MACH_RCV_TOO_LARGE");
        return 1;
    }
    uint32_t reply = 0;
    if (message->reply) {
        if (tasks[task]->count == LIMIT) abort();
        reply = least(tasks[task]);
        set(task, reply, message->reply, ONCE);
    }
    port->first = message->next;
    port->queued--;
    uint32_t head[6] = {message->bits, message->size, reply, name, port->sequence++, message->id};
    char text[16 + 2 * 40] = "message ";
    const unsigned char *bytes = (const unsigned char *)head;
    char *end = text + 8;
    for (size_t i = 0; i < message->size; i++) {
        unsigned char byte = i < 24 ? bytes[i] : message->body[i - 24];
        *end++ = "0123456789abcdef"[byte >> 4];
        *end++ = "0123456789abcdef"[byte & 15];
    }
    *end = 0;
    free(message);
    tell(task, text);
    return 1;
}
static int target(int task, uint32_t name) {
    Entry *entry = at(task, name);
    return entry && entry->port ? entry->port->dies : -1;
}
static void terminate(int number) {
    for (uint32_t name = 1; name < NAMES; name++) {
        Entry *entry = &tasks[number]->entries[name];
        if (!entry->kind) continue;
        Port *dead = entry->kind & RECEIVE ? entry->port : NULL;
        clear(number, name);
        if (dead) die(dead);
    }
    die(tasks[number]->kernel);
}

/* One line of the script: a task, a call, and its words. */
typedef struct {
    int task, argument_count;
    char call[32], right[16];
    uint32_t arguments[8];
    unsigned char bytes[64];
    size_t size;
} Line;

static int run(const Line *line) {
    int task = line->task;
    const uint32_t *given = line->arguments;
    if (!strcmp(line->call, "send")) {
        send(task, line->bytes, line->size);
    } else if (!strcmp(line->call, "receive") || !strcmp(line->call, "wait")) {
        if (!receive(task, given[0], given[1])) {
            if (line->call[0] == 'w') return 0;
            tell(task, "refused MACH_RCV_TIMED_OUT");
        }
    } else {
        int other = target(task, given[0]);
        if (other < 0) {
            tell(task, "refused KERN_INVALID_ARGUMENT");
        } else if (!strcmp(line->call, "allocate")) {
            if (tasks[other]->count == LIMIT) {
                tell(task, "refused KERN_NO_SPACE");
                return 1;
            }
            uint32_t name = least(tasks[other]);
            if (line->right[0] == 'd') set(other, name, NULL, DEAD);
            else set(other, name, born(other, name), RECEIVE);
            tell_number(task, "name", name);
        } else if (!strcmp(line->call, "deallocate")) {
            Entry *entry = at(other, given[1]);
            if (!entry) {
                tell(task, "refused KERN_INVALID_NAME");
            } else if (entry->kind & SEND) {
                take_send(other, given[1], entry);
                tell(task, "done");
            } else if (entry->kind == DEAD) {
                if (!--entry->references) clear(other, given[1]);
                tell(task, "done");
            } else {
                tell(task, "refused KERN_INVALID_RIGHT");
            }
        } else if (!strcmp(line->call, "destroy")) {
            Entry *entry = at(other, given[1]);
            Port *dead = entry && entry->kind & RECEIVE ? entry->port : NULL;
            if (entry) clear(other, given[1]);
            if (dead) die(dead);
            tell(task, entry ? "done" : "refused KERN_INVALID_NAME");
        } else if (!strcmp(line->call, "type")) {
            Entry *entry = at(other, given[1]);
            if (entry) tell_number(task, "type", (uint32_t)entry->kind << 16);
            else tell(task, "refused KERN_INVALID_NAME");
        } else if (!strcmp(line->call, "insert_right")) {
            uint32_t name = given[1];
            Entry *mine = at(task, given[2]);
            if (!mine || !mine->port || (given[3] == 20 ? !(mine->kind & RECEIVE) : !(mine->kind & SEND))) {
                tell(task, "refused KERN_INVALID_NAME");
                return 1;
            }
            Port *port = mine->port;
            Slot *slot = slot_at(key_of(port, other));
            Entry *there = at(other, name);
            if (tasks[other]->count == LIMIT) {
                tell(task, "refused KERN_NO_SPACE");
                return 1;
            }
            if (slot->key ? slot->name != name : there != NULL) {
                tell(task, slot->key ? "refused KERN_RIGHT_EXISTS" : "refused KERN_NAME_EXISTS");
                return 1;
            }
            if (there) {
                there->references++;
                there->kind |= SEND;
            } else {
                set(other, name, port, SEND);
            }
            if (given[3] == 17) take_send(task, given[2], mine);
            tell(task, "done");
        } else if (!strcmp(line->call, "extract_right")) {
            Entry *its = at(other, given[1]);
            if (!its || !(its->kind & SEND)) {
                tell(task, "refused KERN_INVALID_NAME");
                return 1;
            }
            Port *port = its->port;
            if (given[2] == 17) take_send(other, given[1], its);
            tell_number(task, "name", give_send(task, port));
        } else if (!strcmp(line->call, "task_terminate")) {
            terminate(other);
            tell(task, "done");
        } else {
            fprintf(stderr, "plain: %s: no such call\n", line->call);
            exit(2);
        }
    }
    return 1;
}

static int number_of(const char *name) {
    for (int i = 0; i < task_count; i++)
        if (!strcmp(task_names[i], name)) return i;
    fprintf(stderr, "plain: %s: no such task\n", name);
    exit(2);
}
static void read_wiring(const char *path) {
    FILE *file = fopen(path, "r");
    char words[600], one[64], two[64], three[64], four[64];
    static char port_names[256][64];
    static Port *named[256];
    int named_count = 0;
    if (!file) exit(2);
    while (fgets(words, sizeof words, file)) {
        if (sscanf(words, "task %63s", one) == 1) {
            strcpy(task_names[task_count], one);
            int task = made_task();
            Port *port = tasks[task]->kernel = born(-1, 0);
            port->dies = task;
            give_send(task, port);
        } else if (sscanf(words, "port %63s receiver %63s", one, two) == 2) {
            int task = number_of(two);
            uint32_t name = least(tasks[task]);
            strcpy(port_names[named_count], one);
            named[named_count] = born(task, name);
            set(task, name, named[named_count++], RECEIVE);
        } else if (sscanf(words, "hold %63s %63s %63s %63s", one, two, three, four) == 4) {
            Port *port = NULL;
            for (int i = 0; i < named_count; i++)
                if (three[0] == 'p' && !strcmp(port_names[i], four)) port = named[i];
            if (three[0] == 't') port = tasks[number_of(four)]->kernel;
            give_send(number_of(one), port);
        }
    }
    fclose(file);
}
static Line *lines;
static size_t line_count;
static void read_script(const char *path) {
    FILE *file = fopen(path, "r");
    char words[600];
    size_t space = 0;
    if (!file) exit(2);
    while (fgets(words, sizeof words, file)) {
        if (line_count == space) {
            space = space * 2 + 1024;
            if (!(lines = realloc(lines, space * sizeof *lines))) abort();
        }
        Line *line = &lines[line_count++];
        memset(line, 0, sizeof *line);
        char *word = strtok(words, " \n");
        line->task = number_of(word);
        strcpy(line->call, strtok(NULL, " \n"));
        while ((word = strtok(NULL, " \n"))) {
            if (line->call[0] == 's' && line->call[1] == 'e') {
                for (line->size = 0; word[2 * line->size]; line->size++)
                    sscanf(word + 2 * line->size, "%2hhx", &line->bytes[line->size]);
            } else if (*word >= 'a') {
                strcpy(line->right, word);
            } else {
                line->arguments[line->argument_count++] = (uint32_t)strtoul(word, NULL, 10);
            }
        }
    }
    fclose(file);
}

static pthread_mutex_t lock = PTHREAD_MUTEX_INITIALIZER;
static pthread_cond_t changed = PTHREAD_COND_INITIALIZER;
static void *live(void *given) {
    int task = (int)(intptr_t)given;
    for (size_t i = 0; i < line_count; i++) {
        if (lines[i].task != task) continue;
        pthread_mutex_lock(&lock);
        while (!run(&lines[i])) pthread_cond_wait(&changed, &lock);
        if (!strcmp(lines[i].call, "send")) pthread_cond_broadcast(&changed);
        pthread_mutex_unlock(&lock);
    }
    return NULL;
}
static int deaths(uint64_t many) {
    struct timespec begin, end;
    strcpy(task_names[0], "giver");
    int task = made_task();
    tasks[task]->kernel = born(-1, 0);
    for (uint32_t name = 2; ports < many; name = name == LIMIT ? 2 : name + 1) {
        if (!at(task, name)) {
            set(task, name, born(task, name), RECEIVE);
        } else {
            Message *message = room(sizeof *message);
            message->carried = born(-1, 0);
            enqueue(at(task, name)->port, message);
        }
    }
    clock_gettime(CLOCK_MONOTONIC, &begin);
    terminate(task);
    clock_gettime(CLOCK_MONOTONIC, &end);
    printf("%lld\n", (long long)(end.tv_sec - begin.tv_sec) * 1000000 + (end.tv_nsec - begin.tv_nsec) / 1000);
    return ports ? 1 : 0;
}
int main(int count, char **words) {
    if (count == 3 && !strcmp(words[1], "--deaths")) return deaths(strtoull(words[2], NULL, 10));
    int is_live = count == 4 && !strcmp(words[1], "--live");
    if (count != 3 && !is_live) return 2;
    read_wiring(words[count - 2]);
    read_script(words[count - 1]);
    if (is_live) {
        pthread_t threads[64];
        for (int i = 0; i < task_count; i++) pthread_create(&threads[i], NULL, live, (void *)(intptr_t)i);
        for (int i = 0; i < task_count; i++) pthread_join(threads[i], NULL);
    } else {
        for (size_t i = 0; i < line_count; i++) run(&lines[i]);
    }
    fwrite(told, 1, told_size, stdout);
    printf("end events %lu ports %llu\n", events, (unsigned long long)ports);
    return 0;
}
