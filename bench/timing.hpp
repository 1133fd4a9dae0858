// The least time of a call: of many, the one that was disturbed least.
#pragma once
#include <algorithm>
#include <chrono>
#include <limits>

template <class Call> double microseconds(Call call) {
    auto start = std::chrono::steady_clock::now();
    call();
    return std::chrono::duration<double, std::micro>(std::chrono::steady_clock::now() - start).count();
}

class Least {
  public:
    void add(double time) { time_ = std::min(time_, time); }
    double time() const { return time_; }

  private:
    double time_ = std::numeric_limits<double>::infinity();
};
