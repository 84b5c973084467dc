"""What the notebooks of this folder import beside Zipline's own: a vendor's data sets, and what is made of them.

Each column goes by its attribute's name in the data: numbers and truth values in numbers.csv, texts and codes in
labels.csv (`Data.write`).
"""
from tohmeril.pipeline.data import Column, DataSet, EquityPricing
from tohmeril.pipeline.factors import AverageDollarVolume


class Fundamentals(DataSet):
    shares_outstanding = Column(float)
    market_cap = Column(float)
    enterprise_value = Column(float)
    pb_ratio = Column(float)
    pe_ratio = Column(float)
    earnings = Column(float)  # of a share
    ebit = Column(float)
    roe = Column(float)
    exchange_id = Column(object)
    morningstar_sector_code = Column(int, missing_value=-1)


class morningstar:
    class share_class_reference(DataSet):
        security_type = Column(object)
        symbol = Column(object)
        exchange_id = Column(object)
        is_primary_share = Column(bool)
        is_depositary_receipt = Column(bool)

    class company_reference(DataSet):
        standard_name = Column(object)

    class balance_sheet(DataSet):
        limited_partnership = Column(float)

    class valuation(DataSet):
        market_cap = Column(float)


class stocktwits(DataSet):
    bull_minus_bear = Column(float)


def Sector():
    return Fundamentals.morningstar_sector_code.latest


def IsPrimaryShare():
    return morningstar.share_class_reference.is_primary_share.latest


def QTradableStocksUS():
    return AverageDollarVolume(window_length=200).top(15) & (EquityPricing.close.latest > 5)
