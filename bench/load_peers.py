"""Other stores, for comparison: the requests of a `load`, puts, gets and deletes with the same values, so many changes of them
made durable by each commit. A commit of LevelDB is a write batch with sync, of LMDB a transaction. A get sees the changes that
wait for the next commit, and a delete of a key without a value is no change, as in a load; so the program of each store prints
the tally of a load. A store whose headers or whose compiler are missing is left out (`peers.py`).
"""
import subprocess
import time

import peers

# The requests of a load, and its tally. Its words are a path, where the load begins, how many requests it has, and how many
# changes a commit.
REQUESTS = r"""
#include <cstdio>
#include <cstdlib>
#include <string>
struct Request { unsigned long key; char kind; std::string value; };
static Request request_at(unsigned long start, unsigned long number) {
  const unsigned long turn = start % 1000000 + number, key = turn % 10000, round = turn / 10000;
  const char kind = "ppgpgdgp"[(key + round) % 8];
  const size_t bytes = kind != 'p' ? 0 : key % 64 == 0 ? 300 : key % 32 + 1;
  return {key, kind, std::string(bytes, char('a' + turn % 26))};
}
struct Tally {
  unsigned long requests = 0, stored = 0, value = 0, absent = 0, deleted = 0, live = 0, bytes = 0;
  void print() const {
    std::printf("requests %lu\nstored %lu\nvalue %lu\nabsent %lu\ndeleted %lu\nrefused 0\nlive %lu\nbytes %lu\n",
                requests, stored, value, absent, deleted, live, bytes);
  }
};
// Makes the requests one after the other in a store that can tell whether a key has a value, put, take a value away, and commit.
template <class Store> static void serve(Store &store, char **words) {
  const unsigned long start = std::strtoul(words[2], nullptr, 10), count = std::atol(words[3]), most = std::atol(words[4]);
  Tally tally;
  unsigned long waiting = 0;
  for (; tally.requests < count; tally.requests++) {
    const Request request = request_at(start, tally.requests);
    if (request.kind == 'p') {
      store.put(request.key, request.value);
      tally.stored++;
    } else if (!store.has(request.key)) {
      tally.absent++;
      continue;
    } else if (request.kind == 'g') {
      tally.value++;
      continue;
    } else {
      store.erase(request.key);
      tally.deleted++;
    }
    if (++waiting == most) {
      store.commit();
      waiting = 0;
    }
  }
  store.commit();
  store.count(tally.live, tally.bytes);
  tally.print();
}
static void must(bool done) { if (!done) std::exit(1); }
"""
LEVELDB = REQUESTS + r"""
#include <memory>
#include <unordered_map>
#include "leveldb/db.h"
#include "leveldb/write_batch.h"
struct Store {
  leveldb::DB *db;
  leveldb::WriteBatch batch;
  // Of each key that the batch changes, whether it has a value then.
  std::unordered_map<unsigned long, bool> changed;
  bool has(unsigned long key) {
    const auto found = changed.find(key);
    if (found != changed.end()) return found->second;
    std::string value;
    const leveldb::Status status = db->Get(leveldb::ReadOptions(), std::to_string(key), &value);
    must(status.ok() || status.IsNotFound());
    return status.ok();
  }
  void put(unsigned long key, const std::string &value) {
    batch.Put(std::to_string(key), value);
    changed[key] = true;
  }
  void erase(unsigned long key) {
    batch.Delete(std::to_string(key));
    changed[key] = false;
  }
  void commit() {
    leveldb::WriteOptions synced;
    synced.sync = true;
    must(db->Write(synced, &batch).ok());
    batch.Clear();
    changed.clear();
  }
  void count(unsigned long &live, unsigned long &bytes) {
    const std::unique_ptr<leveldb::Iterator> at(db->NewIterator(leveldb::ReadOptions()));
    for (at->SeekToFirst(); at->Valid(); at->Next()) live++, bytes += at->value().size();
  }
};
int main(int, char **words) {
  Store store;
  leveldb::Options options;
  options.create_if_missing = true;
  options.compression = leveldb::kNoCompression;
  must(leveldb::DB::Open(options, words[1], &store.db).ok());
  serve(store, words);
  delete store.db;
}
"""
LMDB = REQUESTS + r"""
#include <lmdb.h>
struct Store {
  MDB_env *env;
  MDB_dbi dbi;
  MDB_txn *txn = nullptr;
  void begin() {
    if (txn) return;
    must(!mdb_txn_begin(env, nullptr, 0, &txn));
    must(!mdb_dbi_open(txn, nullptr, MDB_INTEGERKEY, &dbi));
  }
  bool has(unsigned long key) {
    begin();
    MDB_val k{sizeof key, &key}, v;
    const int failed = mdb_get(txn, dbi, &k, &v);
    must(!failed || failed == MDB_NOTFOUND);
    return !failed;
  }
  void put(unsigned long key, const std::string &value) {
    begin();
    MDB_val k{sizeof key, &key}, v{value.size(), const_cast<char *>(value.data())};
    must(!mdb_put(txn, dbi, &k, &v, 0));
  }
  void erase(unsigned long key) {
    begin();
    MDB_val k{sizeof key, &key};
    must(!mdb_del(txn, dbi, &k, nullptr));
  }
  void commit() {
    if (txn) must(!mdb_txn_commit(txn));
    txn = nullptr;
  }
  void count(unsigned long &live, unsigned long &bytes) {
    begin();
    MDB_cursor *at;
    must(!mdb_cursor_open(txn, dbi, &at));
    MDB_val k, v;
    while (!mdb_cursor_get(at, &k, &v, MDB_NEXT)) live++, bytes += v.mv_size;
    mdb_cursor_close(at);
    mdb_txn_abort(txn);
  }
};
int main(int, char **words) {
  Store store;
  must(!mdb_env_create(&store.env));
  must(!mdb_env_set_mapsize(store.env, 1ul << 32));
  must(!mdb_env_open(store.env, words[1], MDB_NOSUBDIR, 0644));
  serve(store, words);
  mdb_env_close(store.env);
}
"""
SOURCES = {"LevelDB": (LEVELDB, "-lleveldb"), "LMDB": (LMDB, "-llmdb")}


def built(folder):
    """The stores that can be built here, each with its program, which is made in the folder."""
    return peers.built(folder, SOURCES)


def seconds(program, place, start, count, batch, times, tally):
    """The least seconds of so many loads of a fresh store, `batch` changes by each commit. Each must print the tally."""
    best = None
    for _ in range(times):
        peers.emptied(place)
        begin = time.perf_counter()
        done = subprocess.run([program, place, str(start), str(count), str(batch)], stdout=subprocess.PIPE, check=True)
        took = time.perf_counter() - begin
        assert done.stdout == tally
        best = took if best is None else min(best, took)
    peers.emptied(place)
    return best
