/* The functions of include/tipshare.h written by hand in C++, twice, some three times; everything said there holds for them too. */
#pragma once

#include "tipshare.h"

extern "C" {
decltype(tipshare_read) baseline_read, tuned_read;
decltype(tipshare_common) baseline_common, tuned_common;
decltype(tipshare_keep) baseline_keep, tuned_keep;
decltype(tipshare_goal) baseline_goal, tuned_goal, table_goal, anew_goal;
decltype(tipshare_quick) baseline_quick, tuned_quick;
decltype(tipshare_best) baseline_best, tuned_best, table_best;
decltype(tipshare_along) baseline_along, tuned_along;
decltype(tipshare_exact) baseline_exact, tuned_exact, table_exact;
decltype(tipshare_check) baseline_check, tuned_check, table_check;
decltype(tipshare_junior) baseline_junior, tuned_junior;
decltype(tipshare_merge) baseline_merge, tuned_merge;
decltype(tipshare_alone) baseline_alone, tuned_alone;
decltype(tipshare_mend) baseline_mend, tuned_mend;
decltype(tipshare_order) baseline_order, tuned_order;
decltype(tipshare_windows) baseline_windows, tuned_windows;
decltype(tipshare_order_by_tips) baseline_order_by_tips, tuned_order_by_tips;
decltype(tipshare_report) baseline_report, tuned_report, table_report;
}
