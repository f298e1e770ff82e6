/* Calls the static library of src/lib.rs, which is made without Rust's standard library. */
int trial(void);

int main(void)
{
    return trial();
}
