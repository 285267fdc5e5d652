/*
 * Objects that are taken away while they are called: a part of loop.c and of loop_threads.c, whose `served` it is. What
 * the server has on offer changes once nothing of such an object is parked, so that this ends by the types of its
 * operations. One thread at a time is in here.
 */

struct leaving {
  struct leaving *next;
  size_t size;
  unsigned char key[]; /* and room for another one behind it */
};

static struct leaving *leaving; /* objects that are to be taken out */
static uint64_t *parked;        /* tickets of requests that were parked */
static size_t parked_count, parked_room;
static bool lacks_parked; /* memory was short for one of them */

static bool is_parked(uint64_t ticket) { return lr_server_wanted(served, ticket) >= 0; }

/* Forgets those that are parked no more; makes room for as many again where most are. */
static void make_room_for_parked(void) {
  size_t count = 0, room = parked_room == 0 ? 64 : 2 * parked_room;
  for (size_t index = 0; index < parked_count; index++)
    if (is_parked(parked[index])) parked[count++] = parked[index];
  parked_count = count;
  if (2 * count < parked_room) return;
  uint64_t *made = realloc(parked, room * sizeof *made);
  if (made == NULL) return;
  parked = made;
  parked_room = room;
}

/* Notes a request that was performed, if it is parked. */
static void note_parked(uint64_t ticket) {
  if (!is_parked(ticket)) return;
  if (parked_count == parked_room) make_room_for_parked();
  if (parked_count < parked_room)
    parked[parked_count++] = ticket;
  else
    lacks_parked = true;
}

/* Whether a request, which waits or is parked, is of an object: 1, or 0; below 0 where memory is short. */
static int64_t is_of(uint64_t ticket, struct leaving *object) {
  int64_t size = lr_server_part(served, ticket, LR_PART_KEY, object->key + object->size, object->size);
  if (size < 0) return size == LR_E_TICKET ? 0 : size;
  return (uint64_t)size == object->size && memcmp(object->key, object->key + object->size, object->size) == 0;
}

/* Refuses the request that waits, if its object leaves: OBJECT_NOT_EXIST. Where the server asks first and the request
 * has FT_REQUEST it is said to be refused so, and not yet. Answers whether it is refused. */
static bool refuse_leaving(lr_request *asked) {
  int64_t found = 0;
  for (struct leaving *it = leaving; it != NULL && found == 0; it = it->next) found = is_of(asked->ticket, it);
  if (found == 0) return false;
  if (found < 0) return lr_server_give_up(served, asked->ticket), true;
  asked->is_refused = asked->is_raw = 1;
  asked->refusal = LR_EX_OBJECT_NOT_EXIST;
  if (LOOP_ASKS_FIRST && asked->has_client) return false;
  return lr_server_refuse(served, asked->ticket, LR_EX_OBJECT_NOT_EXIST, 0), true;
}

/* Has the request that waits performed; what is left waiting is refused. */
static void perform_one(lr_request *asked) {
  if (!refuse_leaving(asked)) performs(served, asked);
  note_parked(asked->ticket);
  if (lr_server_asked(served, asked, sizeof *asked) != 1) return;
  lr_server_refuse(served, asked->ticket, asked->is_refused ? asked->refusal : LR_EX_TRANSIENT, 0);
}

/* Whether something of an object is parked, or may be. */
static bool is_called_yet(struct leaving *object) {
  lacks_parked = lacks_parked && lr_server_parked(served) > 0;
  for (size_t index = 0; index < parked_count && !lacks_parked; index++)
    if (is_parked(parked[index]) && is_of(parked[index], object) != 0) return true;
  return lacks_parked;
}

/* Takes an object out of what is on offer. False where memory is short. */
static bool take_out(const struct leaving *object) {
  lr_catalogue all = LR_INIT;
  if (lr_catalogue_open(&all) != LR_OK) return false;
  lr_server_swap(served, &all);
  lr_catalogue_remove(&all, object->key, object->size);
  lr_server_swap(served, &all);
  lr_catalogue_close(&all);
  return true;
}

/* Takes those out of which nothing is parked any more. */
static void take_out_all(void) {
  for (struct leaving **at = &leaving; *at != NULL;) {
    struct leaving *it = *at;
    if (is_called_yet(it) || !take_out(it)) {
      at = &it->next;
    } else {
      *at = it->next;
      free(it);
    }
  }
}

int64_t loop_remove(const void *key, size_t key_size) {
  struct leaving *made = malloc(sizeof *made + 2 * key_size);
  if (made == NULL) return LR_E_MEMORY;
  made->next = leaving;
  made->size = key_size;
  if (key_size > 0) memcpy(made->key, key, key_size);
  leaving = made;
  return LR_OK;
}

static void forget_leaving(void) {
  for (struct leaving *it = leaving; it != NULL; it = leaving) {
    leaving = it->next;
    free(it);
  }
  free(parked);
  parked = NULL;
  parked_count = parked_room = 0;
}
