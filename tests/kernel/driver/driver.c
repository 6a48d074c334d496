/* The kernel's first task: plays the scripts of a batch on GNU Mach, and prints what the kernel
   answers.

   The batch is words of 32 bits, which tests/kernel/cases.py makes. A script has tasks, their first
   rights, and steps. Each task is a task of Mach with one thread, the worker. A step is a message
   that a worker sends or receives, and requests to the kernel are such messages too: the step has
   its bytes. The worker waits at a port of its own for the driver, makes the step that is in the
   pages that all tasks share, and answers.

   Names are made true by renaming: a step lists the names that the model has for the rights that it
   brings, and the driver renames what came to those. So the names in later messages are good as
   they are. */
#include "mach.h"
#include "reading.h"

enum { FIRST_SPARE = 0x70000000 }; /* the first of the names that serve for a moment */
/* Flags of a step: it is the trap, its answer has lists, its name has to be a task's, it makes a
   task, it is a request, its rights may come back. */
enum { IS_TRAP = 1, HAS_LISTS = 2, IS_GUARDED = 4, MAKES_TASK = 8 };
enum { IS_REQUEST = 16, COMES_BACK = 32 };
enum { NO_QUESTION, TYPE_OF, SAME_TASK, SAME_PORT };
enum { ENDED = 1, STUCK };

extern u32 batch[];
static u32 controls[1024]; /* the driver's names of the ports where the workers wait */
static u32 born[4096], born_count; /* its send rights to the script's ports, as they were made */
static u32 done; /* where the workers answer */

/* A step as the batch has it: so many wanted names and words of a message follow. */
struct step {
    u32 task, question, flags, option, send_size, receive_size, receive_name, wanted_count,
        word_count, rest[];
};

/* What the driver and the workers share: a step's message, and its code. */
static struct {
    u32 flags, option, send_size, receive_size, receive_name, code, message[4096 - 6];
} shared __attribute__((aligned(4096)));
static char stack[16384] __attribute__((aligned(16)));

/* Workers */

/* An answer of mach_port_names has its lists out of line, in the worker's memory: puts them behind
   it, by pairs. */
static void copy_lists(u32 *message) {
    u32 count = message[10] < 2000 ? message[10] : 2000;
    u32 *listed = (u32 *)message[11], *their = (u32 *)message[15];
    for (u32 i = 0; i < count; i++) message[16 + 2 * i] = listed[i], message[17 + 2 * i] = their[i];
    message[1] = 64 + 8 * count;
}

static void make_step(void) {
    static u32 notice[16];
    u32 *message = shared.message;
    if (shared.flags & IS_TRAP) {
        shared.code = trap_insert_right(message[0], message[1], message[2], message[3]);
        return;
    }
    shared.code = mach_msg(message, shared.option, shared.send_size, shared.receive_size,
                           shared.receive_name, 0, 0);
    /* A request that can't be sent destroys its right to the reply port: a notice comes there. */
    if (shared.code && shared.flags & IS_REQUEST)
        while (!mach_msg(notice, RECEIVE | RECEIVE_TIMEOUT, 0, sizeof notice, REPLY, 0, 0))
            ;
    if (shared.flags & HAS_LISTS && !shared.code && !message[7]) copy_lists(message);
}

static void worker(void) {
    static u32 answer[16];
    for (;;) {
        if (mach_msg(answer, RECEIVE, 0, sizeof answer, CONTROL, 0, 0)) continue;
        make_step();
        send_empty(answer, COPY_SEND, DONE, 0);
    }
}

static void start_thread(u32 task) {
    enum { REGISTERS = 1, COUNT = 17, EIP = 12, STACK = 15 };
    static u32 registers[COUNT];
    must(request(task, THREAD_CREATE, 0), "thread_create");
    u32 thread = m[9];
    registers[EIP] = (u32)worker;
    registers[STACK] = (u32)(stack + sizeof stack - 64);
    m[6] = INTEGER;
    m[7] = REGISTERS;
    m[8] = INTEGERS(COUNT);
    for (int k = 0; k < COUNT; k++) m[9 + k] = registers[k];
    must(request(thread, THREAD_SET_STATE, 3 + COUNT), "thread_set_state");
    must(request(thread, THREAD_RESUME, 0), "thread_resume");
    destroy(thread);
}

/* Adds a task, which has its memory from its maker, so that the worker's code is there. */
static void add_task(u32 task) {
    if (task_count == sizeof tasks / sizeof *tasks) return;
    must(allocate_receive(task, CONTROL), "control port");
    must(allocate_receive(task, REPLY), "reply port");
    controls[task_count] = extract(task, CONTROL, MAKE_SEND);
    must(insert(task, DONE, done, MAKE_SEND), "port of answers");
    must(insert(task, 1, task, COPY_SEND), "own kernel port");
    start_thread(task);
    tasks[task_count++] = task;
}

/* Lets a task make the step in the shared pages: 0, or ENDED if the task has ended before it or by
   it, or STUCK. */
static int let_make(u32 task) {
    static u32 word[16];
    if (send_empty(word, COPY_SEND, controls[task], 0)) return ENDED;
    for (int tries = 0; tries < 20; tries++) {
        if (!mach_msg(word, RECEIVE | RECEIVE_TIMEOUT, 0, sizeof word, done, 50, 0)) return 0;
        if (type_of(self, controls[task]) & IS_DEAD) return ENDED;
    }
    return STUCK;
}

/* Names */

/* The task to whose kernel port a name is a send right: its number, -1 if to another port, -2 if it
   is none. */
static int task_named(u32 task, u32 name) {
    if (!(type_of(tasks[task], name) & HAS_SEND)) return -2;
    u32 port = extract(tasks[task], name, COPY_SEND), k = 0;
    if (!port) return -2;
    while (k < task_count && port != tasks[k]) k++;
    deallocate(port);
    return k < task_count ? (int)k : -1;
}

static int is_real(u32 name) { return name && ~name; }

/* The names of rights in a message that came, in order: how many. The kernel answers requests with
   names that are plain data, of the type 15. */
static u32 names_brought(u32 *found, u32 most) {
    u32 *message = shared.message, *end = message + message[1] / 4, *at = message + 6, count = 0;
    u32 least = shared.flags & IS_REQUEST ? 15 : 16;
    if (!(shared.flags & IS_REQUEST)) found[count++] = message[2];
    if (shared.flags & COMES_BACK) found[count++] = message[3];
    while (at < end && count < most) {
        u32 type = *at & 255, size = *at >> 8 & 255, number = *at >> 16 & 4095;
        u32 is_long = *at >> 29 & 1;
        if (is_long) type = at[1] & 0xffff, size = at[1] >> 16, number = at[2];
        at += is_long ? 3 : 1;
        for (u32 k = 0; type >= least && type <= 21 && k < number && count < most; k++)
            found[count++] = at[k];
        at += (number * size / 8 + 3) / 4;
    }
    return count;
}

/* Whether a name that came has another one in the model, and was not renamed before. */
static int has_to_move(const u32 *found, const u32 *wanted, u32 i) {
    int is_done = found[i] == wanted[i] || !is_real(found[i]) || !is_real(wanted[i]);
    for (u32 k = 0; k < i; k++) is_done |= found[k] == found[i];
    return !is_done;
}

static void rename_to(u32 task, u32 old, u32 new) {
    u32 code = rename(tasks[task], old, new);
    if (!code) return;
    print(" rename ");
    print_digits(new, 8);
    print_character(':');
    print_digits(code, 2);
}

/* Gives what a message has brought to a task the names that the model has for it: first a name that
   is nobody's, since a wanted name may be that of another right that came. Such a name serves once:
   one that is free again is soon given again. */
static void rename_brought(u32 task, const u32 *wanted, u32 most) {
    static u32 found[4096], spare = FIRST_SPARE;
    u32 count = most ? names_brought(found, most) : 0;
    for (u32 i = 0; i < count; i++)
        if (has_to_move(found, wanted, i)) rename_to(task, found[i], spare + i);
    for (u32 i = 0; i < count; i++)
        if (has_to_move(found, wanted, i)) rename_to(task, spare + i, wanted[i]);
    spare += count;
}

/* Steps */

/* What the driver itself is asked of a task's name: its type, or whether it is that task's kernel
   port or that port. */
static u32 answer_to(u32 question, u32 task, u32 name, u32 number) {
    u32 type = type_of(tasks[task], name);
    if (question == TYPE_OF) return type;
    u32 port = extract(tasks[task], name, type & HAS_RECEIVE ? MAKE_SEND : COPY_SEND);
    return port && port == (question == SAME_TASK ? tasks[number] : born[number]);
}

/* After a step that answered: prints what came, and takes up the ports and tasks that were made. */
static void take_answer(const struct step *step, const u32 *wanted, const u32 *sent) {
    u32 *came = shared.message, is_whole = !shared.code;
    print_character(' ');
    print_bytes(came, is_whole ? came[1] : 24);
    if (!is_whole) return;
    int owner = step->task;
    u32 id = step->flags & IS_REQUEST ? sent[5] : 0;
    if (id == PORT_ALLOCATE && step->wanted_count) owner = task_named(step->task, sent[2]);
    if (owner < 0) owner = step->task;
    rename_brought(owner, wanted, step->wanted_count);
    if (id == PORT_ALLOCATE && sent[7] == 1 && !came[7] && born_count < 4096)
        born[born_count++] = extract(tasks[owner], wanted[0], MAKE_SEND);
    if (step->flags & MAKES_TASK && !came[7])
        add_task(extract(tasks[step->task], wanted[0], COPY_SEND));
}

/* Makes a step, and prints its answer behind its number. */
static void play(const struct step *step) {
    const u32 *wanted = step->rest, *words = wanted + step->wanted_count;
    if (step->question) {
        print_digits(answer_to(step->question, step->task, words[0], words[1]), 8);
        return;
    }
    if (step->task >= task_count) {
        print("dead");
        return;
    }
    if (step->flags & IS_GUARDED && task_named(step->task, words[2]) == -1) {
        print("no task");
        return;
    }
    shared.flags = step->flags;
    shared.option = step->option;
    shared.send_size = step->send_size;
    shared.receive_size = step->receive_size;
    shared.receive_name = step->receive_name;
    for (u32 k = 0; k < step->word_count; k++) shared.message[k] = words[k];
    int ended = let_make(step->task);
    if (ended) {
        print(ended == ENDED ? "dead" : "stuck");
        return;
    }
    print_digits(shared.code, 8);
    if (step->flags & COMES_BACK && shared.code == TIMED_OUT)
        rename_brought(step->task, wanted, step->wanted_count);
    if (!(step->flags & IS_TRAP) && step->option & RECEIVE &&
        (!shared.code || shared.code == TOO_LARGE))
        take_answer(step, wanted, words);
}

/* Scripts */

/* A first right: its kind (0 a new port, 1 a send right, 2 a send-once right, 3 a task's kernel
   port), the task that gets it, the name, and the task and the name that it comes from. */
static void give_first(const u32 *right) {
    u32 kind = right[0], task = tasks[right[1]], name = right[2];
    if (kind == 0) {
        must(allocate_receive(task, name), "port");
        born[born_count++] = extract(task, name, MAKE_SEND);
    } else if (kind == 3) must(insert(task, name, tasks[right[3]], COPY_SEND), "kernel port");
    else {
        u32 taken = extract(tasks[right[3]], right[4], kind == 1 ? MAKE_SEND : MAKE_ONCE);
        must(insert(task, name, taken, kind == 1 ? MOVE_SEND : MOVE_ONCE), "right");
    }
}

static u32 *set_up(u32 *at) {
    task_count = born_count = 0;
    for (u32 count = *at++; count--;) {
        m[6] = BOOLEAN;
        m[7] = 1;
        must(request(self, TASK_CREATE, 2), "task_create");
        add_task(m[9]);
    }
    for (u32 count = *at++; count--; at += 5) give_first(at);
    return at;
}

static u32 *play_all(u32 *at, u32 when) {
    for (u32 count = *at++, number = 0; number < count; number++) {
        const struct step *step = (const struct step *)at;
        if (when & BEFORE_EACH) read_rights(0);
        print_digits(number, 4);
        print_character(' ');
        play(step);
        print_end();
        at = (u32 *)step->rest + step->wanted_count + step->word_count;
    }
    return at;
}

static void clear_up(void) {
    for (u32 k = 0; k < task_count; k++) request(tasks[k], TASK_TERMINATE, 0);
    for (u32 i = 0, count = list_names(DRIVER); i < count; i++) destroy(names[i]);
}

static u32 *play_script(u32 *at) {
    print("script ");
    print_digits(*at++, 8);
    print_end();
    u32 when = *at++;
    at = play_all(set_up(at), when);
    if (when & AT_END) {
        while (born_count) destroy(born[--born_count]); /* they would count as senders */
        read_rights(when);
    }
    clear_up();
    return at;
}

void driver(void) {
    enum { SHARE = 0 };
    self = mach_task_self();
    reply = mach_reply_port();
    done = mach_reply_port();
    m[6] = m[8] = m[10] = INTEGER;
    m[7] = (u32)&shared;
    m[9] = sizeof shared;
    m[11] = SHARE;
    must(request(self, VM_INHERIT, 6), "vm_inherit");
    for (u32 count = list_names(DRIVER); own_count < count && own_count < 64; own_count++)
        own[own_count] = names[own_count];
    print("BEGIN");
    print_end();
    for (u32 *at = batch; ~*at;) at = play_script(at);
    print("END");
    print_end();
    for (;;) mach_msg(m, RECEIVE, 0, sizeof m, reply, 0, 0);
}
