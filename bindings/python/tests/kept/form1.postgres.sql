CREATE TABLE "Bookings" (
    who text NOT NULL COLLATE pg_catalog."C",
    fno bigint NOT NULL
);
CREATE TABLE "Log" (
    n bigint NOT NULL,
    who text NOT NULL COLLATE pg_catalog."C"
);
CREATE TABLE bookings_too (
    who text,
    fno bigint
);
CREATE TABLE counted (
    id bigint NOT NULL,
    name text,
    how_many bigint,
    note text DEFAULT 'x'::text
);
ALTER TABLE counted ALTER COLUMN id ADD GENERATED ALWAYS AS IDENTITY (
    SEQUENCE NAME counted_id_seq
    START WITH 1
    INCREMENT BY 1
    NO MINVALUE
    NO MAXVALUE
    CACHE 1
);
CREATE TABLE counted_too (
    id bigint NOT NULL,
    name text,
    how_many bigint,
    note text DEFAULT 'x'::text
);
ALTER TABLE counted_too ALTER COLUMN id ADD GENERATED ALWAYS AS IDENTITY (
    SEQUENCE NAME counted_too_id_seq
    START WITH 1
    INCREMENT BY 1
    NO MINVALUE
    NO MAXVALUE
    CACHE 1
);
CREATE TABLE entangle_claim (
    form bigint NOT NULL,
    claim bigint NOT NULL,
    write bigint NOT NULL,
    epoch bigint NOT NULL,
    last_group bigint NOT NULL,
    next_ticket bigint NOT NULL
);
CREATE TABLE entangle_tables (
    place text NOT NULL,
    store text NOT NULL
);
CREATE TABLE entangle_tickets (
    ticket bigint NOT NULL,
    request_key text,
    script text NOT NULL,
    bound text NOT NULL,
    patience bigint NOT NULL,
    batches bigint NOT NULL,
    ended_in bigint,
    ending text,
    epoch bigint,
    number bigint,
    failure text,
    answers text,
    CONSTRAINT entangle_tickets_check CHECK (((ended_in IS NULL) = ((ending IS NULL) OR (ending = 'withdrawn'::text)))),
    CONSTRAINT entangle_tickets_check1 CHECK (((ending = 'committed'::text) = (number IS NOT NULL)))
);
CREATE TABLE log_too (
    n bigint,
    who text
);
INSERT INTO "Bookings" VALUES ('Ann', 100);
INSERT INTO "Bookings" VALUES ('Bob''s', 100);
INSERT INTO "Log" VALUES (2, 'Hal');
INSERT INTO "Log" VALUES (3, 'Jan');
INSERT INTO counted OVERRIDING SYSTEM VALUE VALUES (4, 'all', 4, 'x');
INSERT INTO counted_too OVERRIDING SYSTEM VALUE VALUES (1, 'all', 0, 'x');
INSERT INTO entangle_claim VALUES (1, 2, 16, 3, 6, 12);
INSERT INTO entangle_tables VALUES ('counted', 'entangle');
INSERT INTO entangle_tables VALUES ('Bookings', 'entangle');
INSERT INTO entangle_tables VALUES ('Log', 'entangle');
INSERT INTO entangle_tickets VALUES (1, 'k1', 'pair', '{"me": "Ann", "friend": "Bob''s"}', 0, 0, 1, 'committed', 1, 1, NULL, '[{"answer": {"Trip": ["Ann", 100]}}, {"count": 1}]');
INSERT INTO entangle_tickets VALUES (3, 'k3', 'pair', '{"me": "Bob''s", "friend": "Ann"}', 0, 0, 1, 'committed', 1, 2, NULL, '[{"answer": {"Trip": ["Bob''s", 100]}}, {"count": 1}]');
INSERT INTO entangle_tickets VALUES (2, 'k2', 'alone', '{"me": "Cleo", "size": -9223372036854775807}', 2, 1, 2, 'gave up', NULL, NULL, NULL, '[]');
INSERT INTO entangle_tickets VALUES (4, 'k4', 'fail', '{"me": "Eve é"}', 1, 0, 3, 'failed', NULL, NULL, 'F1', '[]');
INSERT INTO entangle_tickets VALUES (5, 'k5', 'roll', '{"me": "Dan"}', 0, 0, 4, 'rolled back', NULL, NULL, NULL, '[]');
INSERT INTO entangle_tickets VALUES (6, NULL, 'add', '{"me": "Hal"}', -1, 0, 5, 'committed', 1, 3, NULL, '[{"count": 1}, {"count": 1}]');
INSERT INTO entangle_tickets VALUES (7, 'k6', 'pair', '{"me": "Ida", "friend": "nobody"}', 0, 0, NULL, 'withdrawn', NULL, NULL, NULL, '[]');
INSERT INTO entangle_tickets VALUES (8, 'k7', 'add', '{"me": "Jan"}', -1, 0, 6, 'committed', 3, 1, NULL, '[{"count": 1}, {"count": 1}]');
INSERT INTO entangle_tickets VALUES (10, 'k9', 'pair', '{"me": "Finn", "friend": "Gus"}', 3, 0, NULL, NULL, NULL, NULL, NULL, NULL);
INSERT INTO entangle_tickets VALUES (11, NULL, 'pair', '{"me": "Lea", "friend": "Max"}', 0, 0, NULL, NULL, NULL, NULL, NULL, NULL);
INSERT INTO entangle_tickets VALUES (9, 'k8', 'alone', '{"me": "Kim"}', 9, 3, NULL, NULL, NULL, NULL, NULL, NULL);
SELECT pg_catalog.setval('counted_id_seq', 4, true);
SELECT pg_catalog.setval('counted_too_id_seq', 1, true);
ALTER TABLE ONLY "Bookings"
    ADD CONSTRAINT "Bookings_pkey" PRIMARY KEY (who, fno);
ALTER TABLE ONLY counted
    ADD CONSTRAINT counted_pkey PRIMARY KEY (id);
ALTER TABLE ONLY counted_too
    ADD CONSTRAINT counted_too_pkey PRIMARY KEY (id);
ALTER TABLE ONLY entangle_claim
    ADD CONSTRAINT entangle_claim_pkey PRIMARY KEY (form);
ALTER TABLE ONLY entangle_tables
    ADD CONSTRAINT entangle_tables_pkey PRIMARY KEY (place);
ALTER TABLE ONLY entangle_tickets
    ADD CONSTRAINT entangle_tickets_pkey PRIMARY KEY (ticket);
ALTER TABLE ONLY entangle_tickets
    ADD CONSTRAINT entangle_tickets_request_key_key UNIQUE (request_key);
CREATE UNIQUE INDEX entangle_commits ON entangle_tickets USING btree (epoch, number) WHERE (ending = 'committed'::text);
CREATE INDEX entangle_waiting ON entangle_tickets USING btree (ticket) WHERE (ending IS NULL);
