"""What the scripts of runs/ share. None of it shares code with the programs.

faults, steps, trials       what a check raises; steps that are printed one by one, and runs that are tried side by side
commands, processes         the command line of a script; a program that runs, and outbox-broker
services, schedules         the three services and the worked order; runs of outbox-schedule
order_runs, rules           whether a run of one order is right, and the rules by which journals are replayed
files, first_version        what SQLite finds in a file; files of version 1
stomp_client, honest        a client that writes and reads frames as they are; honest clients
stomp_model, mutations      what a broker has to answer; octets that are changed at random
played_broker, mutated_service    the broker of a service, played by the script
allocations, alloc.c        runs in which one allocation fails
brokers, proxy, seats, lives, damages    of the services that are killed: their brokers, the proxy between, who gives commands, all of
                            these from a start to an end, damaged files
hotels, hotel_damages, hotel_help.txt    a hotel with its partners, and what it prints of itself
power, power.c              what programs write to their files, and what is left of it after a power cut
"""
