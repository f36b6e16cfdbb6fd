/*
  main.c -- the desk: every call of the library from the shell

      desk COMMAND [ARGUMENT..]

  It is run by the script linkwords, whose --help tells the commands.
*/

#include "desk.h"

int main(int argc, char **argv)
{
    int status = desk(argc, argv), given = give_output();

    return given == YES ? status : given;
}
