#!/usr/bin/env python3
"""The first file of docs/SERVER.md as one writes it by hand in PostgreSQL.

by_hand.py DSN makes the tables, prints its address, and serves. A function of the database takes an advisory lock for
the two names, keeps the wish, and looks for the friend's by SKIP LOCKED. It books pairs and nothing else: what three
want, or a ring, or what depends on rows that others change, is another function.
"""

import asyncio
import json
import sys

import psycopg
from aiohttp import web

CONNECTIONS = 16
SCHEMA = """
CREATE TABLE places (place TEXT PRIMARY KEY);
INSERT INTO places VALUES ('Bistro'), ('Canteen');
CREATE TABLE lunches (who TEXT NOT NULL, place TEXT NOT NULL);
CREATE TABLE wishes (key TEXT PRIMARY KEY, me TEXT NOT NULL, friend TEXT NOT NULL, place TEXT,
                     until TIMESTAMPTZ NOT NULL, at BIGINT GENERATED ALWAYS AS IDENTITY);
CREATE INDEX waiting ON wishes (me, friend, at) WHERE place IS NULL;
CREATE FUNCTION lunch(my_key TEXT, my_name TEXT, my_friend TEXT, OUT booked TEXT, OUT partner TEXT) AS $$
DECLARE
  is_new BOOLEAN;
BEGIN
  PERFORM pg_advisory_xact_lock(hashtextextended(least(my_name, my_friend) || '/' || greatest(my_name, my_friend), 0));
  INSERT INTO wishes (key, me, friend, until) VALUES (my_key, my_name, my_friend, now() + interval '1 hour')
    ON CONFLICT (key) DO UPDATE SET key = excluded.key RETURNING place, xmax = 0 INTO booked, is_new;
  IF NOT is_new THEN RETURN; END IF;
  SELECT key INTO partner FROM wishes WHERE me = my_friend AND friend = my_name AND place IS NULL AND until > now()
    ORDER BY at LIMIT 1 FOR UPDATE SKIP LOCKED;
  IF partner IS NULL THEN RETURN; END IF;
  SELECT place INTO booked FROM places ORDER BY place LIMIT 1;
  UPDATE wishes SET place = booked WHERE key IN (my_key, partner);
  INSERT INTO lunches VALUES (my_name, booked), (my_friend, booked);
END $$ LANGUAGE plpgsql;
"""


class ByHand:
    """A pool of connections, and one that tells who was booked."""

    def __init__(self, dsn):
        self.dsn, self.free, self.waits = dsn, asyncio.Queue(), {}

    async def open(self):
        async with await psycopg.AsyncConnection.connect(self.dsn, autocommit=True) as connection:
            await connection.execute(SCHEMA)
        for _ in range(CONNECTIONS):
            self.free.put_nowait(await psycopg.AsyncConnection.connect(self.dsn, autocommit=True))

    async def run(self, sql, *values):
        connection = await self.free.get()
        try:
            return await (await connection.execute(sql, values)).fetchone()
        finally:
            self.free.put_nowait(connection)

    async def put(self, request):
        given = json.loads(await request.read())
        key, values = given["key"], given["values"]
        booked, partner = await self.run("SELECT * FROM lunch(%s, %s, %s)", key, values["me"], values["friend"])
        for event in self.waits.pop(partner, ()):
            event.set()
        return web.json_response({"state": "booked" if booked else "waits", "where": booked}, status=202)

    async def one(self, request):
        key = request.headers["Entangle-Key"]
        event = asyncio.Event()
        self.waits.setdefault(key, []).append(event)
        (place,) = await self.run("SELECT place FROM wishes WHERE key = %s", key)
        if place is None:
            await asyncio.wait_for(event.wait(), 20)
            (place,) = await self.run("SELECT place FROM wishes WHERE key = %s", key)
        return web.json_response({"state": "booked" if place else "waits"})


async def main():
    service = ByHand(sys.argv[1])
    await service.open()
    application = web.Application()
    one = web.get("/v1/requests/{digest}", service.one)
    application.add_routes([web.post("/v1/requests/lunch", service.put), one])
    runner = web.AppRunner(application, access_log=None)
    await runner.setup()
    await web.TCPSite(runner, "127.0.0.1", 0).start()
    print(f"http://127.0.0.1:{runner.addresses[0][1]}", flush=True)
    await asyncio.Event().wait()


asyncio.run(main())
