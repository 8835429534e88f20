# etagere/src/allocator.rs: a released item goes to the back of the free list
/^            \/\/ Insert item_idx in the "unallocated" list\.$/,/first_unallocated = item_idx;$/c\
            let mut last = self.shelves[shelf.index()].first_unallocated;\
            self.items[item_idx.index()].next_unallocated = ItemIndex::NONE;\
            if last.is_none() {\
                self.items[item_idx.index()].prev_unallocated = ItemIndex::NONE;\
                self.shelves[shelf.index()].first_unallocated = item_idx;\
            } else {\
                while self.items[last.index()].next_unallocated.is_some() {\
                    last = self.items[last.index()].next_unallocated;\
                }\
                self.items[item_idx.index()].prev_unallocated = last;\
                self.items[last.index()].next_unallocated = item_idx;\
            }
