/* What `cc main.c -llemonrudder` links: a server is opened and closed. */
#include <lemonrudder.h>
#include <stdio.h>

int main(void) {
  lr_catalogue catalogue = LR_INIT;
  lr_server server = LR_INIT;
  int64_t done = lr_catalogue_open(&catalogue);
  if (done == LR_OK) done = lr_catalogue_object(&catalogue, "c", 1);
  if (done == LR_OK) done = lr_server_open(&server, &catalogue, 1, 2);
  lr_close(&server);
  printf("%s\n", lr_strerror(done));
  return done != LR_OK;
}
