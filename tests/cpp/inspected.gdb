break look
run
up
tlsf blocks heap
tlsf whose heap p+4
tlsf blocks moved
