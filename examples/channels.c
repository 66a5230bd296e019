int main(void)
{
    send(0, 5, 1);
    send(0, 0, 2);
    receive(1u);
    receive(32u);
    printf("channel 0 came first,\nthen channel 5\n");
}
