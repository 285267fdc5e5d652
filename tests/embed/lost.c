/* A store of bank_durable.*, over bank_sqlite.c, which is compiled as bank_real: the answer to the first COMMIT with an
 * outcome is lost, and before the store is asked again another process takes out what it has, and moves W. */
#include "bank_store.h"

extern const struct store bank_real;
static bool is_kept, is_lost;

static bool keep(const struct key *key, const lr_store_outcome *outcome) {
  is_kept = true;
  return bank_real.keep(key, outcome);
}

static bool commit(void) {
  uint64_t least;
  if (!bank_real.commit()) return false;
  if (!is_kept || is_lost) return true;
  is_lost = true;
  if (!bank_real.begin(&least) || bank_real.purge(UINT64_MAX) < 0 || !bank_real.commit()) return true;
  return bank_failed("COMMIT", "its answer is lost");
}

static bool open_real(const char *name) { return bank_real.open(name); }
static void close_real(void) { bank_real.close(); }
static bool begin(uint64_t *least) { return bank_real.begin(least); }
static bool rollback(void) { return bank_real.rollback(); }
static int find(const struct key *key, lr_store_outcome *outcome) { return bank_real.find(key, outcome); }
static bool balance(const char *name, int64_t *cents) { return bank_real.balance(name, cents); }
static bool set_balance(const char *name, int64_t cents) { return bank_real.set_balance(name, cents); }
static int purge(uint64_t moment) { return bank_real.purge(moment); }

const struct store bank_sqlite = {open_real, close_real, begin, commit, rollback, find, keep, balance, set_balance,
                                  purge};
