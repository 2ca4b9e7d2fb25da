interface System { }
