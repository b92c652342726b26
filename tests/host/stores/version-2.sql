BEGIN TRANSACTION;
CREATE TABLE about (name TEXT PRIMARY KEY, value TEXT NOT NULL);
INSERT INTO "about" VALUES('schema','2');
CREATE TABLE message (
        key TEXT PRIMARY KEY, host TEXT NOT NULL, line TEXT NOT NULL, peer TEXT NOT NULL, encoding TEXT NOT NULL,
        began DOUBLE PRECISION NOT NULL, ended DOUBLE PRECISION,
        state TEXT NOT NULL CHECK (state IN ('open', 'whole', 'unfinished', 'unreadable')),
        reason TEXT NOT NULL DEFAULT '', digest TEXT NOT NULL DEFAULT '', size BIGINT NOT NULL DEFAULT 0,
        again_of TEXT REFERENCES message(key), number BIGINT UNIQUE,
        CHECK ((number IS NOT NULL) = (state = 'whole')));
INSERT INTO "message" VALUES('aaaaaaaaaaaaaaaaaaaaaaaa','fire','chemistry','192.0.2.7','latin-1',1000.0,1001.0,'whole','','d86e333c307d55b6b5553bfc84a5e66f6d315a06362e94ae640aa9747a6aca5f',59,NULL,1);
INSERT INTO "message" VALUES('bbbbbbbbbbbbbbbbbbbbbbbb','fire','chemistry','192.0.2.7','latin-1',1001.0,1002.0,'unfinished','the session ended before its L record','c6b871cf03450d8194112f53079cdb991be30c072815c3feb458ab7226e9ca8e',10,NULL,NULL);
INSERT INTO "message" VALUES('cccccccccccccccccccccccc','fire','chemistry','192.0.2.7','latin-1',1002.0,1003.0,'unreadable','record 2, from byte 6: no record above it','9735198d04927ec350be8601312daff863f6b4e3e9cf6c1e84db70354f1c87fa',10,NULL,NULL);
INSERT INTO "message" VALUES('dddddddddddddddddddddddd','fire','chemistry','192.0.2.7','latin-1',1003.0,1004.0,'whole','','d86e333c307d55b6b5553bfc84a5e66f6d315a06362e94ae640aa9747a6aca5f',59,'aaaaaaaaaaaaaaaaaaaaaaaa',2);
INSERT INTO "message" VALUES('eeeeeeeeeeeeeeeeeeeeeeee','fire','chemistry','192.0.2.7','latin-1',1004.0,1005.0,'whole','mended from ffffffffffffffffffffffff: record 1, from byte 0: NUL was left out','a2361cc7ada578a6c1bbd211930cfdf40b53e0953fdfc72d4ae298e53261d991',59,NULL,3);
INSERT INTO "message" VALUES('ffffffffffffffffffffffff','fire','chemistry','192.0.2.7','latin-1',1004.5,1005.5,'unreadable','mended: delivered as eeeeeeeeeeeeeeeeeeeeeeee; record 1, from byte 0','a73e3ea1e4c0760be525b124f8a3726822ddb1aeb4c77bdcb18c13a410aa1519',60,NULL,NULL);
INSERT INTO "message" VALUES('gggggggggggggggggggggggg','fire','chemistry','192.0.2.7','latin-1',1005.0,NULL,'open','','',0,NULL,NULL);
CREATE TABLE orders (
        number BIGINT PRIMARY KEY, sample TEXT NOT NULL, tests TEXT NOT NULL, line TEXT NOT NULL DEFAULT '',
        priority TEXT NOT NULL DEFAULT 'R', patient TEXT NOT NULL DEFAULT '', name TEXT NOT NULL DEFAULT '',
        birth TEXT NOT NULL DEFAULT '', sex TEXT NOT NULL DEFAULT '', collected TEXT NOT NULL DEFAULT '',
        state TEXT NOT NULL DEFAULT 'waiting' CHECK (state IN ('waiting', 'sent', 'failed', 'cancelled')),
        reason TEXT NOT NULL DEFAULT '', tries INTEGER NOT NULL DEFAULT 0, asked TEXT NOT NULL DEFAULT '',
        seat TEXT NOT NULL DEFAULT '', holder TEXT NOT NULL DEFAULT '', added DOUBLE PRECISION NOT NULL,
        changed DOUBLE PRECISION NOT NULL, next_try DOUBLE PRECISION NOT NULL DEFAULT 0, more TEXT NOT NULL DEFAULT '{}', came TEXT NOT NULL DEFAULT '[]', done DOUBLE PRECISION NOT NULL DEFAULT 0, sent_on TEXT NOT NULL DEFAULT '');
INSERT INTO "orders" VALUES(1,'S1','["GLU"]','','R','','','','','','sent','',0,'','','',2000.0,2000.0,0.0,'{}','[]',0.0,'chemistry');
INSERT INTO "orders" VALUES(2,'S2','["NA"]','chemistry','R','','','','','','waiting','',0,'','','',2000.0,2000.0,0.0,'{}','[]',0.0,'');
CREATE TABLE text (
        message TEXT NOT NULL REFERENCES message(key), place INTEGER NOT NULL, at DOUBLE PRECISION NOT NULL,
        body BLOB NOT NULL, PRIMARY KEY (message, place)) WITHOUT ROWID;
INSERT INTO "text" VALUES('aaaaaaaaaaaaaaaaaaaaaaaa',0,1000.0,X'487C5C5E260D507C317C7C343731310D4F7C317C53317C7C5E5E5E474C550D527C317C5E5E5E474C557C352E347C6D6D6F6C2F4C0D4C7C317C4E0D');
INSERT INTO "text" VALUES('bbbbbbbbbbbbbbbbbbbbbbbb',0,1001.0,X'487C5C5E260D507C310D');
INSERT INTO "text" VALUES('cccccccccccccccccccccccc',0,1002.0,X'487C5C5E260D527C310D');
INSERT INTO "text" VALUES('dddddddddddddddddddddddd',0,1003.0,X'487C5C5E260D507C317C7C343731310D4F7C317C53317C7C5E5E5E474C550D527C317C5E5E5E474C557C352E347C6D6D6F6C2F4C0D4C7C317C4E0D');
INSERT INTO "text" VALUES('eeeeeeeeeeeeeeeeeeeeeeee',0,1004.0,X'487C5C5E260D507C317C7C343731320D4F7C317C53317C7C5E5E5E474C550D527C317C5E5E5E474C557C352E347C6D6D6F6C2F4C0D4C7C317C4E0D');
INSERT INTO "text" VALUES('ffffffffffffffffffffffff',0,1004.5,X'00487C5C5E260D507C317C7C343731320D4F7C317C53317C7C5E5E5E474C550D527C317C5E5E5E474C557C352E347C6D6D6F6C2F4C0D4C7C317C4E0D');
INSERT INTO "text" VALUES('gggggggggggggggggggggggg',0,1005.0,X'487C5C5E260D507C310D');
CREATE INDEX message_by_digest ON message (line, digest) WHERE again_of IS NULL;
CREATE INDEX message_not_whole ON message (began) WHERE state <> 'whole';
CREATE INDEX orders_waiting ON orders (sample) WHERE state = 'waiting';
CREATE INDEX orders_failed ON orders (changed) WHERE state = 'failed';
COMMIT;
PRAGMA user_version=2;
