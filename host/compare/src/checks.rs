//! One comparison of each function on given inputs.

use kernel::oracle::{self, *};

use core::fmt::Debug;

use tables::tally::Tally;

use crate::{expected, port};

/// Each comparison, for a tally.
pub trait Checks {
    fn compare<T: PartialEq + Debug>(
        &mut self,
        function: &'static str,
        input: impl Debug,
        port: T,
        expected: T,
    );

    fn budget_new(&mut self, b: Budget) {
        let made = port::budget_new(b.budget, b.period, b.burst);
        let wanted = expected::budget_made(b.budget, b.period, b.burst);
        self.compare("BudgetParameters::new", b, made, wanted);
    }

    fn weight_new(&mut self, value: u16) {
        let wanted = oracle::weight_new(value);
        self.compare("ThreadWeight::new", value, port::weight_new(value), wanted);
    }

    fn params_fair(&mut self, weight: u16, quantum: u64, band: u8, role: Role, f: Backend) {
        let made = port::params_fair(weight, quantum, band, role, f);
        let wanted = oracle::params_fair(weight, quantum, band, role, f);
        let input = (weight, quantum, band, role, f);
        self.compare("SchedulingParameters::fair", input, made, wanted);
    }

    fn params_budget(&mut self, budget: Budget, band: u8, role: Role) {
        let made = port::params_budget(budget, band, role);
        let wanted = oracle::params_budget(budget, band, role);
        let input = (budget, band, role);
        self.compare("SchedulingParameters::budget", input, made, wanted);
    }

    fn params_fifo(&mut self, priority: u8, band: u8, role: Role) {
        let made = port::params_fifo(priority, band, role);
        let wanted = oracle::params_fifo(priority, band, role);
        let input = (priority, band, role);
        self.compare("SchedulingParameters::fifo", input, made, wanted);
    }

    fn policy(&mut self, policy: Policy) {
        let given = port::policy_class(policy);
        let wanted = oracle::policy_class(policy);
        self.compare("SchedulingPolicy::class", policy, given, wanted);
        let given = port::policy_priority(policy);
        let wanted = oracle::policy_priority(policy);
        self.compare("SchedulingPolicy::priority", policy, given, wanted);
    }

    fn priority_new(&mut self, value: u8) {
        let (given, wanted) = (port::priority_new(value), oracle::priority_new(value));
        self.compare("ThreadPriority::new", value, given, wanted);
        let (given, wanted) = (port::policy_fifo(value), oracle::policy_fifo(value));
        self.compare("SchedulingPolicy::fifo", value, given, wanted);
    }

    fn constants(&mut self) {
        let (given, wanted) = (port::constants(), expected::constants());
        self.compare("constants of policy.rs", (), given, wanted);
        let (given, wanted) = (port::policy_fair(), oracle::policy_fair());
        self.compare("SchedulingPolicy::fair", (), given, wanted);
    }

    /// The seven readers, on parameters of any value.
    fn params_read(&mut self, params: Params) {
        let (given, wanted) = (port::params_read(params), oracle::params_read(params));
        let name = "SchedulingParameters::policy";
        self.compare(name, params, given.policy, wanted.policy);
        let name = "SchedulingParameters::band";
        self.compare(name, params, given.band, wanted.band);
        let name = "SchedulingParameters::role";
        self.compare(name, params, given.role, wanted.role);
        let name = "SchedulingParameters::weight";
        self.compare(name, params, given.weight, wanted.weight);
        let name = "SchedulingParameters::quantum_ns";
        self.compare(name, params, given.quantum, wanted.quantum);
        let name = "SchedulingParameters::fair_backend";
        self.compare(name, params, given.backend, wanted.backend);
        let name = "SchedulingParameters::budget_parameters";
        self.compare(name, params, given.budget, wanted.budget);
    }

    fn runtime_same_kind(&mut self, runtime: Runtime, params: Params) {
        let given = port::runtime_same_kind(runtime, params);
        let wanted = expected::kinds_agree(runtime, params);
        let input = (runtime, params);
        self.compare("same_kind, by PolicyRuntime::account", input, given, wanted);
    }

    fn params_idle(&mut self) {
        let wanted = oracle::params_idle();
        self.compare(
            "SchedulingParameters::idle",
            (),
            port::params_idle(),
            wanted,
        );
    }

    fn budget_runtime_new(&mut self, budget: Budget) {
        let made = port::budget_runtime_new(budget);
        let wanted = expected::runtime_of_budget(budget);
        self.compare("BudgetRuntime::new", budget, made, wanted);
    }

    fn budget_refresh(&mut self, runtime: BudgetRt, now: u64, budget: Budget) {
        let given = port::budget_refresh(runtime, now, budget);
        let wanted = expected::refresh(runtime, now, budget);
        let input = (runtime, now, budget);
        self.compare("BudgetRuntime::refresh", input, given, wanted);
    }

    fn budget_account(&mut self, runtime: BudgetRt, start: u64, end: u64, budget: Budget) {
        let given = port::budget_account_interval(runtime, start, end, budget);
        let wanted = expected::account_interval(runtime, start, end, budget);
        let input = (runtime, start, end, budget);
        self.compare("BudgetRuntime::account_interval", input, given, wanted);
    }

    fn budget_period_deadline(&mut self, now: u64, budget: Budget) {
        let given = port::budget_period_deadline(now, budget);
        let wanted = expected::period_deadline(now, budget);
        self.compare(
            "BudgetRuntime::period_deadline",
            (now, budget),
            given,
            wanted,
        );
    }

    fn budget_deadline(&mut self, runtime: BudgetRt, now: u64, budget: Budget, borrow: bool) {
        let given = port::budget_deadline(runtime, now, budget, borrow);
        let wanted = expected::deadline(runtime, now, budget, borrow);
        let input = (runtime, now, budget, borrow);
        self.compare("BudgetRuntime::deadline", input, given, wanted);
    }

    fn budget_finish_turn(&mut self, runtime: BudgetRt, budget: Budget) {
        let given = port::budget_finish_turn(runtime, budget);
        let wanted = expected::finish_turn(runtime, budget);
        let input = (runtime, budget);
        self.compare("BudgetRuntime::finish_turn", input, given, wanted);
    }

    fn budget_reconfigure(&mut self, runtime: BudgetRt, old: Budget, new: Budget) {
        let given = port::budget_reconfigure(runtime, old, new);
        let wanted = expected::reconfigure(runtime, old, new);
        let input = (runtime, old, new);
        self.compare("BudgetRuntime::reconfigure", input, given, wanted);
    }

    fn runtime_new(&mut self, params: Params, fair: Runtime) {
        let made = port::runtime_new(params, fair);
        let wanted = expected::policy_runtime_new(params, fair);
        self.compare("PolicyRuntime::new", (params, fair), made, wanted);
    }

    fn runtime_account(&mut self, runtime: Runtime, params: Params, start: u64, end: u64) {
        let given = port::runtime_account(runtime, params, start, end);
        let wanted = expected::account(runtime, params, start, end);
        let input = (runtime, params, start, end);
        self.compare("PolicyRuntime::account", input, given, wanted);
    }

    fn runtime_epoch_refresh(&mut self, runtime: Runtime, now: u64, params: Params) {
        let given = port::runtime_epoch_refresh(runtime, now, params);
        let wanted = expected::epoch_refresh(runtime, now, params);
        let input = (runtime, now, params);
        self.compare("PolicyRuntime::epoch_refresh", input, given, wanted);
    }

    fn runtime_candidate_key(&mut self, runtime: Runtime, params: Params, turn: u64) {
        let given = port::runtime_candidate_key(runtime, params, turn);
        let wanted = oracle::runtime_candidate_key(runtime, params, turn);
        let input = (runtime, params, turn);
        self.compare("PolicyRuntime::candidate_key", input, given, wanted);
    }

    fn runtime_next_deadline(
        &mut self,
        runtime: Runtime,
        now: u64,
        params: Params,
        competition: bool,
        borrow: bool,
    ) {
        let given = port::runtime_next_deadline(runtime, now, params, competition, borrow);
        let wanted = expected::runtime_deadline(runtime, now, params, competition, borrow);
        let input = (runtime, now, params, competition, borrow);
        self.compare("PolicyRuntime::next_deadline", input, given, wanted);
    }

    fn runtime_finish_turn(&mut self, runtime: Runtime, params: Params) {
        let given = port::runtime_finish_turn(runtime, params);
        let wanted = expected::runtime_turn_finished(runtime, params);
        let input = (runtime, params);
        self.compare("PolicyRuntime::finish_turn", input, given, wanted);
    }

    fn config_new(&mut self, config: Config) {
        let made = port::config_new(config);
        let wanted = expected::config_made(config);
        self.compare("ArbitrationConfig::new", config, made, wanted);
    }

    fn config_with_prefer_fair(&mut self, config: Config, prefer: bool) {
        let given = port::config_with_prefer_fair(config, prefer);
        let wanted = oracle::config_with_prefer_fair(config, prefer);
        let input = (config, prefer);
        self.compare("ArbitrationConfig::with_prefer_fair", input, given, wanted);
    }

    fn config_accepts(&mut self, config: Config, params: Params) {
        let given = port::config_accepts(config, params);
        let wanted = oracle::config_accepts(config, params);
        self.compare(
            "ArbitrationConfig::accepts",
            (config, params),
            given,
            wanted,
        );
    }

    fn config_admits(&mut self, config: Config, params: Params, backend: Backend) {
        let given = port::config_admits(config, params, backend);
        let wanted = oracle::config_admits(config, params, backend);
        let input = (config, params, backend);
        self.compare("ArbitrationConfig::admits", input, given, wanted);
    }

    fn window_new(&mut self, config: Config) {
        let made = port::window_new(config);
        self.compare(
            "CpuWindow::new",
            config,
            made,
            expected::window_made(config),
        );
    }

    fn window_period_ns(&mut self, window: Window) {
        let given = port::window_period_ns(window);
        let wanted = oracle::window_period_ns(window);
        self.compare("CpuWindow::period_ns", window, given, wanted);
    }

    fn window_refresh(&mut self, window: Window, now: u64) -> Window {
        let given = port::window_refresh(window, now);
        let wanted = expected::refreshed(window, now);
        self.compare("CpuWindow::refresh", (window, now), given, wanted);
        wanted.1
    }

    fn window_account(
        &mut self,
        window: Window,
        start: u64,
        end: u64,
        params: Params,
        mode: Mode,
    ) -> Window {
        let given = port::window_account_dispatch(window, start, end, params, mode);
        let wanted = expected::account_dispatch(window, start, end, params, mode);
        let input = (window, start, end, params, mode);
        self.compare("CpuWindow::account_dispatch", input, given, wanted);
        wanted.1
    }

    fn window_period_deadline(&mut self, window: Window, now: u64) {
        let given = port::window_period_deadline(window, now);
        let wanted = expected::window_period(window, now);
        self.compare("CpuWindow::period_deadline", (window, now), given, wanted);
    }

    fn window_protection(&mut self, window: Window, now: u64, waiting: bool) -> Window {
        let given = port::window_protection_deadline(window, now, waiting);
        let wanted = expected::protection(window, now, waiting);
        let input = (window, now, waiting);
        self.compare("CpuWindow::protection_deadline", input, given, wanted);
        wanted.1
    }

    fn window_candidate_key(
        &mut self,
        window: Window,
        now: u64,
        candidate: Candidate,
        demand: Demand,
    ) -> (Option<Key>, Window) {
        let given = port::window_candidate_key(window, now, candidate, demand);
        let wanted = expected::candidate_key(window, now, candidate, demand);
        let input = (window, now, candidate, demand);
        self.compare("CpuWindow::candidate_key", input, given, wanted);
        let key = wanted.0.ok().flatten().map(|(key, _)| key);
        (key, wanted.1)
    }

    fn window_next_deadline(
        &mut self,
        window: Window,
        now: u64,
        mode: Mode,
        competition: bool,
        demand: Demand,
    ) -> Window {
        let given = port::window_next_deadline(window, now, mode, competition, demand);
        let wanted = expected::window_deadline(window, now, mode, competition, demand);
        let input = (window, now, mode, competition, demand);
        self.compare("CpuWindow::next_deadline", input, given, wanted);
        wanted.1
    }

    fn key_compare(&mut self, a: Key, b: Key) {
        let given = port::key_compare(a, b);
        self.compare("compare_keys", (a, b), given, oracle::key_compare(a, b));
    }
}

impl Checks for Tally {
    fn compare<T: PartialEq + Debug>(
        &mut self,
        function: &'static str,
        input: impl Debug,
        port: T,
        expected: T,
    ) {
        Tally::compare(self, function, input, port, expected);
    }
}
