/* Puts the code of the measuring programs into a section of its own, so that it is told from the code that is measured. */
SECTIONS
{
    .measuring : { *(.text .text.*) }
}
