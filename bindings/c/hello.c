/* hello.c: sends a datagram to its own relayed address, by which it comes back. */
#include <stdio.h>
#include <turn_driver.h>

int main(int argc, char **argv)
{
    const char *server = argc > 1 ? argv[1] : "turn:127.0.0.1";
    turn_driver_failure failure;
    turn_driver *driver = turn_driver_open(server, "alice", "secret", NULL, &failure);
    if (driver == NULL) {
        fprintf(stderr, "%s\n", failure.text);
        return 1;
    }
    char bytes[1500], text[TURN_ADDRESS_TEXT_MAX];
    turn_address relayed, from;
    size_t len;
    turn_driver_relayed(driver, &relayed, 1);
    int32_t status = turn_driver_send_to(driver, &relayed, "hello", 5);
    if (status == TURN_DRIVER_OK)
        status = turn_driver_recv_from(driver, &from, bytes, sizeof bytes, &len, 2000);
    if (status == TURN_DRIVER_OK)
        printf("%.*s from %s\n", (int)len, bytes, turn_address_text(&from, text));
    else if (status == TURN_DRIVER_TIMEOUT)
        fprintf(stderr, "nothing came back\n");
    else
        fprintf(stderr, "%s\n", turn_driver_last_failure(driver)->text);
    turn_driver_close(driver);
    return status == TURN_DRIVER_OK ? 0 : 1;
}
