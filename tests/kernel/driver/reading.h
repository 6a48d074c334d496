/* Reads off what rights the tasks of a script have. Each line that it prints is of a name of a
   space: that of task WHO, or the driver's own, where WHO is ffff.

       = k WHO PORT                  the task lives, and its kernel port
       = n WHO NAME TYPE REFS PORT   references of a send right or a dead name; the port of a
                                     send right or a receive right
       = s WHO NAME STATUS..         of a receive right: mach_port_status
       = t WHO NAME MEMBER..         of a port set
       = m WHO NAME MARK             a message with this id was sent through a send-once right: that
                                     of the name, or of the request for its port's notice
       = q ffff PORT BYTES           a message in the port's queue

   PORT is the driver's own name of the port. It has a send right to it as long as it reads, and a
   space has one name for all send rights to a port. A send-once right has no such name: its port is
   the one where its mark comes out. Of a port whose receive right is in a queue nothing is known
   before that queue is emptied. So the driver first reads what changes nothing but make-send
   counts. At last it takes all apart. */
enum { AT_END = 1, BEFORE_EACH = 2, QUEUES_TOO = 4 }; /* when a script's rights are read */
enum { CONTROL = 0x7fff0001, REPLY, DONE }; /* names of a worker, which are not the script's */
enum { DRIVER = 0xffff, FIRST_MARK = 0x40000000, MOST = 8192 };

static u32 tasks[1024], task_count;  /* the driver's names of the tasks of the script */
static u32 own[64], own_count;       /* its own names before the first script */
static u32 names[MOST], types[MOST]; /* the names of the space that was listed last */
static u32 lent[MOST], lent_count;   /* the send rights that it has only to read */
static u32 received[4096];           /* a message that it takes from a queue */

static void begin(char what, u32 who, u32 x) {
    print("= ");
    print_character(what);
    print_character(' ');
    print_digits(who, 4);
    print_character(' ');
    print_digits(x, 8);
}
static void also(u32 x) {
    print_character(' ');
    print_digits(x, 8);
}
static u32 space_of(u32 who) { return who == DRIVER ? self : tasks[who]; }
static void give_back(u32 *list, u32 count) {
    request_2(self, VM_DEALLOCATE, INTEGER, (u32)list, INTEGER, 4 * count);
}

/* Names that are not the script's: those of the workers, and those that the driver had at first. */
static int is_ours(u32 who, u32 name) {
    u32 k = 0;
    if (who != DRIVER) return name >= CONTROL && name <= DONE;
    while (k < own_count && own[k] != name) k++;
    return k < own_count;
}

/* Fills names and types: how many. */
static u32 list_names(u32 who) {
    if (request(space_of(who), PORT_NAMES, 0)) return 0;
    u32 all = m[10], count = 0, *listed = (u32 *)m[11], *their = (u32 *)m[15];
    for (u32 i = 0; i < all && count < MOST; i++)
        if (!is_ours(who, listed[i])) names[count] = listed[i], types[count++] = their[i];
    give_back(listed, all);
    give_back(their, all);
    return count;
}

static void read_receive_right(u32 who, u32 name) {
    must(request_1(space_of(who), PORT_GET_RECEIVE_STATUS, NAME, name), "status");
    begin('s', who, name);
    for (u32 k = 0; k < 9; k++) also(m[9 + k]);
    print_end();
}

static void read_set(u32 who, u32 name) {
    must(request_1(space_of(who), PORT_GET_SET_STATUS, NAME, name), "members");
    u32 count = m[10], *members = (u32 *)m[11];
    begin('t', who, name);
    for (u32 k = 0; k < count; k++) also(members[k]);
    print_end();
    give_back(members, count);
}

static void read_name(u32 who, u32 name, u32 type) {
    u32 port = 0;
    if (type & HAS_RECEIVE) read_receive_right(who, name);
    if (type & IS_SET) read_set(who, name);
    if (who != DRIVER && type & (HAS_SEND | HAS_RECEIVE) && lent_count < MOST)
        port = lent[lent_count++] =
            extract(tasks[who], name, type & HAS_SEND ? COPY_SEND : MAKE_SEND);
    must(request_2(space_of(who), PORT_GET_REFS, NAME, name, INTEGER, type & IS_DEAD ? 4 : 0),
         "refs");
    begin('n', who, name);
    also(type);
    also(m[9]);
    also(port);
    print_end();
}

static void read_space(u32 who) {
    for (u32 i = 0, count = list_names(who); i < count; i++) read_name(who, names[i], types[i]);
}

/* A request for no right gives back the right of the port's last request: the driver's name of it.
   */
static u32 last_request(u32 who, u32 name) {
    m[6] = NAME;
    m[7] = name;
    m[8] = INTEGER;
    m[9] = 69;
    m[10] = INTEGER;
    m[11] = 0;
    m[12] = ITEM(MAKE_ONCE);
    m[13] = 0;
    must(request_with(COMPLEX, space_of(who), PORT_REQUEST_NOTIFICATION, 8), "request");
    return m[9];
}

/* Takes the send-once rights of a space and of its ports' requests, and sends a mark through each.
   */
static void mark_space(u32 who) {
    static u32 last = FIRST_MARK, mark[6];
    for (u32 i = 0, count = list_names(who); i < count; i++) {
        u32 once = 0;
        if (types[i] & HAS_ONCE)
            once = who == DRIVER ? names[i] : extract(tasks[who], names[i], MOVE_ONCE);
        else if (types[i] & HAS_RECEIVE) once = last_request(who, names[i]);
        if (!once) continue;
        int is_sent = ~once && !send_empty(mark, MOVE_ONCE, once, ++last);
        begin('m', who, names[i]);
        also(is_sent ? last : 0);
        print_end();
    }
}

static void take_receive_rights(u32 who) {
    for (u32 i = 0, count = list_names(who); i < count; i++)
        if (types[i] & HAS_RECEIVE) extract(tasks[who], names[i], MOVE_RECEIVE);
}

/* Receives all that is queued on a port of the driver: whether there was something. */
static int empty_queue(u32 port) {
    int some = 0;
    while (!mach_msg(received, RECEIVE | RECEIVE_TIMEOUT, 0, sizeof received, port, 0, 0)) {
        begin('q', DRIVER, port);
        print_character(' ');
        print_bytes(received, received[1]);
        print_end();
        some = 1;
    }
    return some;
}

/* Empties all queues, also those of ports whose receive rights come out of queues. */
static void empty_queues(void) {
    for (int some = 1; some;) {
        some = 0;
        for (u32 i = 0, count = list_names(DRIVER); i < count; i++)
            if (types[i] & HAS_RECEIVE) some |= empty_queue(names[i]);
    }
}

static void read_rights(u32 when) {
    for (u32 k = 0; k < task_count; k++)
        if (type_of(self, tasks[k]) & HAS_SEND) {
            begin('k', k, tasks[k]);
            print_end();
            read_space(k);
        }
    if (when & QUEUES_TOO) {
        for (u32 k = 0; k < task_count; k++) mark_space(k);
        for (u32 k = 0; k < task_count; k++) take_receive_rights(k);
        empty_queues();
        read_space(DRIVER);
        mark_space(DRIVER);
        empty_queues();
    }
    while (lent_count) deallocate(lent[--lent_count]);
}
