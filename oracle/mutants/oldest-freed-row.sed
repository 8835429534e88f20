# etagere/src/allocator.rs: the row freed first is used first
/^    fn remove_item/,/^    }$/c\
    fn remove_item(&mut self, idx: ItemIndex) {\
        self.items[idx.index()].next = ItemIndex::NONE;\
        if self.free_items.is_none() {\
            self.free_items = idx;\
            return;\
        }\
        let mut last = self.free_items;\
        while self.items[last.index()].next.is_some() {\
            last = self.items[last.index()].next;\
        }\
        self.items[last.index()].next = idx;\
    }
