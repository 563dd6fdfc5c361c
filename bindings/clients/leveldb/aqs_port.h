// aqs_port.h: LevelDB's mutex and condition over libaqs, in the place of those over the standard library in
// port/port_stdcxx.h.
#ifndef AQS_LEVELDB_PORT_H
#define AQS_LEVELDB_PORT_H

#include <cassert>
#include <mutex>

#include "aqs.hpp"
#include "port/thread_annotations.h"

namespace leveldb {
namespace port {

class CondVar;

class LOCKABLE Mutex {
 public:
  void Lock() EXCLUSIVE_LOCK_FUNCTION() { mutex_.lock(); }
  void Unlock() UNLOCK_FUNCTION() { mutex_.unlock(); }
  // The standard's mutex can't say this.
  void AssertHeld() ASSERT_EXCLUSIVE_LOCK() { assert(mutex_.is_mine()); }

 private:
  friend class CondVar;
  aqs::plain_mutex mutex_;
};

// LevelDB makes one for each write.
class CondVar {
 public:
  explicit CondVar(Mutex* mutex) : mutex_(mutex) {}

  void Wait() {
    std::unique_lock<aqs::plain_mutex> guard(mutex_->mutex_, std::adopt_lock);
    condition_.wait(guard);
    guard.release();
  }
  void Signal() { condition_.notify_one(); }
  void SignalAll() { condition_.notify_all(); }

 private:
  Mutex* const mutex_;
  aqs::condition_variable condition_;
};

}  // namespace port
}  // namespace leveldb

#endif
