int main(void)
{
    printf("hello\n");
}
