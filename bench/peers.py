"""Other stores, for comparison: puts of 32 bytes, so many of them made durable by each commit. Every store gets the same
batching: a commit of LevelDB is a write batch with sync, of LMDB a transaction, of SQLite one with a log ahead (WAL) that is
synced at each commit. The keys are the numbers from 0 on, or those of a file, and the store at a path is opened where there is
one. A store whose headers or whose compiler are missing is left out.
"""
import shutil
import subprocess
import time

# The keys: `changes` numbers from 0 on, or those of the file that a fourth word names.
KEYS = r"""
#include <cstdlib>
#include <fstream>
#include <vector>
static std::vector<unsigned long> keys_of(char **words) {
  std::vector<unsigned long> keys;
  if (words[4]) {
    std::ifstream file(words[4]);
    for (unsigned long key; file >> key;) keys.push_back(key);
  } else {
    for (long key = 0; key < std::atol(words[2]); key++) keys.push_back(key);
  }
  return keys;
}
"""
# A fifth word is how many bytes it keeps in memory before it writes a table of them.
LEVELDB = KEYS + r"""
#include <string>
#include "leveldb/db.h"
#include "leveldb/write_batch.h"
int main(int, char **words) {
  const std::vector<unsigned long> keys = keys_of(words);
  const size_t changes = keys.size(), most = std::atol(words[3]);
  leveldb::DB *db;
  leveldb::Options options;
  options.create_if_missing = true;
  options.compression = leveldb::kNoCompression;
  if (words[4] && words[5]) options.write_buffer_size = std::atol(words[5]);
  if (!leveldb::DB::Open(options, words[1], &db).ok()) return 1;
  leveldb::WriteOptions synced;
  synced.sync = true;
  for (size_t at = 0; at < changes;) {
    leveldb::WriteBatch batch;
    for (size_t i = 0; i < most && at < changes; i++, at++) batch.Put(std::to_string(keys[at]), std::string(32, 'v'));
    if (!db->Write(synced, &batch).ok()) return 1;
  }
  delete db;
}
"""
LMDB = KEYS + r"""
#include <cstring>
#include <lmdb.h>
static void must(int failed) { if (failed) std::exit(1); }
int main(int, char **words) {
  const std::vector<unsigned long> keys = keys_of(words);
  const size_t changes = keys.size(), most = std::atol(words[3]);
  MDB_env *env;
  MDB_dbi dbi;
  must(mdb_env_create(&env));
  must(mdb_env_set_mapsize(env, 1ul << 32));
  must(mdb_env_open(env, words[1], MDB_NOSUBDIR, 0644));
  char value[32];
  std::memset(value, 'v', sizeof value);
  for (size_t at = 0; at < changes;) {
    MDB_txn *txn;
    must(mdb_txn_begin(env, nullptr, 0, &txn));
    must(mdb_dbi_open(txn, nullptr, MDB_INTEGERKEY, &dbi));
    for (size_t i = 0; i < most && at < changes; i++, at++) {
      unsigned long key = keys[at];
      MDB_val k{sizeof key, &key}, v{sizeof value, value};
      must(mdb_put(txn, dbi, &k, &v, 0));
    }
    must(mdb_txn_commit(txn));
  }
  mdb_env_close(env);
}
"""
SQLITE = KEYS + r"""
#include <cstring>
#include <sqlite3.h>
static void must(bool done) { if (!done) std::exit(1); }
int main(int, char **words) {
  const std::vector<unsigned long> keys = keys_of(words);
  const size_t changes = keys.size(), most = std::atol(words[3]);
  sqlite3 *db;
  auto run = [&](const char *text) { must(sqlite3_exec(db, text, nullptr, nullptr, nullptr) == SQLITE_OK); };
  must(sqlite3_open(words[1], &db) == SQLITE_OK);
  run("pragma journal_mode = wal");
  run("pragma synchronous = full");
  run("create table pairs (key integer primary key, value blob)");
  sqlite3_stmt *put;
  must(sqlite3_prepare_v2(db, "insert or replace into pairs values (?, ?)", -1, &put, nullptr) == SQLITE_OK);
  char value[32];
  std::memset(value, 'v', sizeof value);
  for (size_t at = 0; at < changes;) {
    run("begin");
    for (size_t i = 0; i < most && at < changes; i++, at++) {
      sqlite3_bind_int64(put, 1, keys[at]);
      sqlite3_bind_blob(put, 2, value, sizeof value, SQLITE_STATIC);
      must(sqlite3_step(put) == SQLITE_DONE);
      sqlite3_reset(put);
    }
    run("commit");
  }
  sqlite3_finalize(put);
  sqlite3_close(db);
}
"""
SOURCES = {"LevelDB": (LEVELDB, "-lleveldb"), "LMDB": (LMDB, "-llmdb"), "SQLite": (SQLITE, "-lsqlite3")}


def built(folder, sources=None):
    """The stores that can be built here, each with its program, which is made in the folder."""
    programs = {}
    for name, (text, library) in (sources or SOURCES).items():
        source, program = folder / f"{name}.cc", folder / name
        source.write_text(text)
        command = ["g++", "-O2", source, "-o", program, library]
        if shutil.which("g++") and not subprocess.run(command, capture_output=True).returncode:
            programs[name] = program
    return programs


def emptied(place):
    """Takes away what an earlier run left at a path, beside it too."""
    for old in place.parent.glob(place.name + "*"):
        shutil.rmtree(old) if old.is_dir() else old.unlink()


def seconds(program, place, changes, batch, times=3):
    """The least seconds of so many runs, each of which makes the changes durable at a fresh path, `batch` of them by each
    commit."""
    best = None
    for _ in range(times):
        emptied(place)
        begin = time.perf_counter()
        subprocess.run([program, place, str(changes), str(batch)], check=True)
        took = time.perf_counter() - begin
        best = took if best is None else min(best, took)
    emptied(place)
    return best
