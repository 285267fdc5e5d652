/* A client calls a counter, loses the connection with the reply, and calls again: it acts once. */
#include <lemonrudder.h>
#include <stdio.h>
#include <stdlib.h>
#include <time.h>

static const uint8_t long_type[] = {LR_TYPE_LONG}, longlong_type[] = {LR_TYPE_LONGLONG};

/* What a function answers, which is no error. */
static int64_t sure(int64_t answer) {
  if (answer >= 0) return answer;
  fprintf(stderr, "%s\n", lr_strerror(answer));
  exit(1);
}

/* Performs long long add(in long n), and answers it. */
static void perform(lr_server *server, const lr_request *asked, int64_t *total) {
  uint8_t body[8] = {0};
  int32_t n;
  lr_place in = {.at = asked->body_at, .order = asked->body_order}, out = {.order = LR_ORDER_BIG};
  sure(lr_server_part(server, asked->ticket, LR_PART_BODY, body, sizeof body));
  sure(lr_get_long(body, sizeof body, &in, &n));
  sure(lr_put_longlong(body, sizeof body, &out, *total + n));
  sure(lr_server_answer(server, asked->ticket, LR_ORDER_BIG, body, out.next));
  *total += n;
}

int main(void) {
  lr_catalogue catalogue = LR_INIT;
  lr_server server = LR_INIT;
  lr_client client = LR_INIT;
  uint64_t now = lr_moment((uint64_t)time(NULL), 0);
  uint8_t octets[4096] = {0, 0, 0, 7};
  int64_t total = 0;
  sure(lr_catalogue_open(&catalogue));
  sure(lr_catalogue_object(&catalogue, LR_TEXT("counter")));
  sure(lr_catalogue_operation(&catalogue, LR_TEXT("counter"), LR_TEXT("add"), long_type, 1, longlong_type, 1));
  sure(lr_server_open(&server, &catalogue, 1, 2)); /* 1, 2: random numbers in a product */
  sure(lr_client_open(&client, LR_TEXT("client 1")));
  sure(lr_client_call(&client, now, now + 60 * LR_SECOND, LR_TEXT("counter"), LR_TEXT("add"), long_type, 1,
                      LR_ORDER_BIG, octets, 4));

  for (uint64_t connection = 1; connection <= 2; connection++) {
    lr_request request;
    sure(lr_server_connect(&server, connection));
    sure(lr_client_connected(&client, now));
    int64_t size = sure(lr_client_output(&client, octets, sizeof octets));
    for (int64_t at = 0; at < size;) {
      at += sure(lr_server_feed(&server, connection, now, octets + at, (size_t)(size - at)));
      if (sure(lr_server_asked(&server, &request, sizeof request))) perform(&server, &request, &total);
    }
    size = sure(lr_server_output(&server, connection, octets, sizeof octets));
    if (connection == 1) {
      sure(lr_server_lost(&server, connection));
      sure(lr_client_lost(&client));
    } else {
      sure(lr_client_feed(&client, octets, (size_t)size));
    }
  }
  lr_completion completion;
  if (sure(lr_client_completed(&client, &completion, sizeof completion))) {
    int64_t result, size = sure(lr_client_body(&client, octets, sizeof octets));
    lr_place in = {.at = completion.body_at, .order = completion.body_order};
    sure(lr_get_longlong(octets, (size_t)size, &in, &result));
    printf("add returned %lld, the total is %lld\n", (long long)result, (long long)total);
  }
  lr_close(&client);
  lr_close(&server);
}
