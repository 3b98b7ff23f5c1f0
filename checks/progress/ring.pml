/* The ring from the reader to the clerk, of rtrb. An end that keeps a copy of the other's word looks at the word again
   only where by its copy there is no room, or nothing. The other end can only have made room since, or put
   something in, so a look each time finds the same. For the same reason a look that finds room, or something, may
   be taken at once with the step behind it. */

chan ring = [PIECES] of { byte };

inline push(item) {
  together {
    if
    :: nfull(ring) -> ring!item; was_pushed = true
    :: full(ring)
    fi
  }
}

inline pop(item) {
  together {
    if
    :: nempty(ring) -> ring?item; has_popped = true
    :: empty(ring)
    fi
  }
}
