/*
 * The bank by what omniidl makes of bank.idl: a server, and a client of any server of it.
 *
 *     omniidl -p idl -blemonrudder -Wbc -Cmade examples/bank.idl
 *     cc -Imade -Iexamples examples/idl/bank.c examples/loop.c made/bank_idl.c made/lemonrudder_idl.c \
 *         $(pkg-config --cflags --libs lemonrudder) -o idl_bank
 *     ./idl_bank serve
 *     ./idl_bank deposit IOR:.. alice 5
 */
#define _DEFAULT_SOURCE
#include <stdio.h>
#include <stdlib.h>
#include <unistd.h>

#include "bank_idl.h"
#include "loop.h"

#define KEY "bank"
enum { ACCOUNTS = 100 };

struct account {
  char name[32];
  int64_t balance;
};
static struct account accounts[ACCOUNTS];
static lr_idl_offer offer;

/* The account of a name, which is opened where there is none; NULL where it can't be. */
static struct account *account_of(struct account *first, const char *name) {
  if (name[0] == 0 || strlen(name) >= sizeof first->name) return NULL;
  for (struct account *it = first; it < first + ACCOUNTS; it++) {
    if (it->name[0] == 0) memcpy(it->name, name, strlen(name));
    if (strcmp(it->name, name) == 0) return it;
  }
  return NULL;
}

/* Money moves only where the answer counts. */
static int64_t deposit(void *self, const lr_idl_call *call, const char *name, int64_t amount) {
  struct account *account = account_of(self, name);
  if (account == NULL || (amount > 0 && account->balance > INT64_MAX - amount))
    return lr_server_system(call->server, call->ticket, LR_EX_BAD_PARAM, 0, LR_COMPLETED_NO);
  if (account->balance + amount < 0) {
    const Bank_Overdrawn overdrawn = {account->balance};
    return Bank_Overdrawn__raise(call, &overdrawn);
  }
  int64_t answered = Bank_deposit__answer(call, account->balance + amount);
  if (answered == LR_OK || answered == LR_E_LOST) account->balance += amount;
  return answered;
}

static int64_t balance(void *self, const lr_idl_call *call, const char *name) {
  const struct account *account = account_of(self, name);
  return Bank_balance__answer(call, account == NULL ? 0 : account->balance);
}

static const POA_Bank bank = {accounts, deposit, balance};

static void perform(lr_server *server, const lr_request *asked) { lr_idl_perform(&offer, server, asked); }

static int64_t open_server(lr_server *server) {
  lr_catalogue catalogue = LR_INIT;
  uint64_t seeds[2];
  offer = POA_Bank__offer(&bank, LR_TEXT(KEY));
  int64_t done = getentropy(seeds, sizeof seeds) == 0 ? lr_catalogue_open(&catalogue) : LR_E_RANGE;
  if (done == LR_OK) done = lr_idl_add(&catalogue, &offer);
  if (done == LR_OK) done = lr_server_open(server, &catalogue, seeds[0], seeds[1]);
  lr_close(&catalogue);
  return done;
}

/* Serves until SIGTERM. */
static int serve(void) {
  lr_server server = LR_INIT;
  uint16_t port = 0;
  int listener = loop_listen("127.0.0.1", &port);
  if (listener < 0) return perror("idl_bank"), 1;
  int64_t done = open_server(&server);
  if (done == LR_OK) done = loop_print(LR_TEXT(Bank__id), 2, "127.0.0.1", port, LR_TEXT(KEY));
  if (done < 0) return fprintf(stderr, "idl_bank: %s\n", lr_strerror(done)), 1;
  int served = loop_serve(&server, listener, perform, NULL);
  lr_close(&server);
  return served == 0 ? 0 : 1;
}

/* Makes a deposit at the bank of a reference, and prints the balance. */
static int call(const char *reference, const char *account, const char *amount) {
  lr_idl_caller caller = LR_IDL_CALLER;
  lr_idl_raised raised = LR_IDL_RAISED;
  int64_t result;
  int64_t done = lr_idl_caller_of(&caller, reference);
  if (done == LR_OK) done = Bank_deposit(lr_idl_object_of(&caller), account, atoll(amount), &result, &raised);
  const Bank_Overdrawn *overdrawn = Bank_Overdrawn__of(&raised);
  if (done == LR_OK)
    printf("%lld\n", (long long)result);
  else if (overdrawn != NULL)
    printf("overdrawn: %lld\n", (long long)overdrawn->balance);
  else
    fprintf(stderr, "%s\n", done == LR_ENDED_SYSTEM ? raised.id : lr_strerror(done));
  int status = done == LR_OK || overdrawn != NULL ? 0 : 1;
  lr_idl_raised_free(&raised);
  lr_idl_caller_close(&caller);
  return status;
}

int main(int count, char **words) {
  if (count == 2) return serve();
  return count == 5 ? call(words[2], words[3], words[4]) : 2;
}
