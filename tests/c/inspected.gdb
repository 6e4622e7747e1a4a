break look
run
up
print heap
print shut
print name
print near
tlsf blocks near
tlsf blocks heap
tlsf lists &heap
tlsf whose heap blocks[0]+5
tlsf whose heap blocks[0]+103
tlsf whose heap blocks[1]
tlsf whose heap blocks[2]-8
tlsf whose heap (char*)(heap.base+other.at+3)+14
tlsf whose heap &name
tlsf blocks shut
tlsf whose gone gone.base+1
tlsf blocks name
tlsf nothing
continue
up
print heap
tlsf blocks heap
tlsf whose heap blocks[2]
