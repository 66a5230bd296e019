int main(void)
{
    send(0, 0, 7);
    receive(1u);
    printf("a letter came\n");
}
